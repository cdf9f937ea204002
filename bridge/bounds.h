/* Limits of a bridge. */
#ifndef BRIDGE_LIMITS_H
#define BRIDGE_LIMITS_H

enum {
    BRIDGE_MOST_NODES = 64,
    BRIDGE_MOST_WORKERS = 8, /* of a node: each sends into one bus and hears the other */
    BRIDGE_MOST_BYTES = 48,  /* of a message: a bus has 56, and 8 say whose it is */
    BRIDGE_MOST_SEND = 16,   /* messages of a send of a worker */
    BRIDGE_MOST_WINDOW = 1024,
    BRIDGE_MOST_BATCH = 256
};

#endif
