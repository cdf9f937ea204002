/* What can be wrong, by name and in words. */
#ifndef BRIDGE_FAULTS_H
#define BRIDGE_FAULTS_H

#include <stddef.h>
#include <stdint.h>

enum bridge_code {
    BRIDGE_OK,
    /* of options: nothing was begun */
    BRIDGE_NO_SUCH_OPTION,
    BRIDGE_NO_VALUE,
    BRIDGE_GIVEN_TWICE,
    BRIDGE_NOT_A_NUMBER,
    BRIDGE_OUT_OF_RANGE,
    BRIDGE_BAD_TEXT,
    BRIDGE_BAD_LINE,
    BRIDGE_NO_FILE,
    /* passing: the bridge says it, waits, and tries again */
    BRIDGE_ENGINE_ABSENT,
    BRIDGE_ENGINE_SILENT,
    BRIDGE_ENGINE_REFUSES,
    BRIDGE_STREAM_ABSENT,
    /* of one entry: the bridge says it, and passes it over */
    BRIDGE_DAMAGED_ENTRY,
    /* for good: the bridge ends */
    BRIDGE_WRONG_STREAM,
    BRIDGE_STREAM_CHANGED,
    BRIDGE_TAKEN_OVER,
    BRIDGE_NEWER_VERSION,
    BRIDGE_OLDER_VERSION,
    BRIDGE_BUS_REFUSES,
    BRIDGE_NO_MEMORY,
    BRIDGE_NO_THREAD,
    BRIDGE_BAD_PLACE
};

struct bridge_fault {
    enum bridge_code code;
    char text[320]; /* its reason, without its name */
};

/* Fills *fault, and gives its code. */
__attribute__((format(printf, 3, 4))) enum bridge_code
fault_set(struct bridge_fault *fault, enum bridge_code code, const char *form, ...);

/* The name of a code, such as "OutOfRange". */
const char *fault_name(enum bridge_code code);

/* Whether the bridge ends by it. */
int fault_is_final(enum bridge_code code);

/* Prints one line to standard error, with its end, in one write. */
__attribute__((format(printf, 1, 2))) void say(const char *form, ...);

#endif
