/* The two buses of a node: rings, whose words are used again once all receivers have passed them.
   So they have no end but that of their 2^40 tenures, after which the node says so and ends.

   KIOSKBASIL_FULL of a ring is for now: the batch stays with its sender, and is sent later. */
#ifndef BRIDGE_RINGS_H
#define BRIDGE_RINGS_H

#include "faults.h"
#include "kioskbasil.h"
#include <stdatomic.h>

/* Opens a ring, whose sender i goes on with the number next[i], or 0 where next is NULL. `whose`
   says which it is. BRIDGE_OK, BRIDGE_BUS_REFUSES or BRIDGE_NO_MEMORY. */
enum bridge_code ring_open(uint64_t log_words, const uint64_t *next, kioskbasil_sender *senders,
                           size_t many_senders, kioskbasil_receiver *receivers,
                           size_t many_receivers, const char *whose, struct bridge_fault *fault);

/* Sends what waits with a sender, which waits for other senders alone: KIOSKBASIL_DELIVERED or
   FULL, or IDLE where nothing waits. Once *stop says so it answers KIOSKBASIL_WAITING, where the
   batch is not in the order, or BEHIND, where it may be. Else why the ring takes nothing any
   more. */
uint32_t ring_send(kioskbasil_sender *sender, uint64_t *seed, atomic_bool *stop);

/* The same, and it waits for room too. So FULL says that *stop does. */
uint32_t ring_send_all(kioskbasil_sender *sender, uint64_t *seed, atomic_bool *stop);

/* Whether a ring takes nothing any more, by what it has answered, and why. */
bool ring_ends(uint32_t code, const char *whose, struct bridge_fault *fault);

#endif
