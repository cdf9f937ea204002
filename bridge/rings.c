#include "rings.h"
#include "waiting.h"
#include <string.h>

enum bridge_code ring_open(uint64_t log_words, const uint64_t *next, kioskbasil_sender *senders,
                           size_t many_senders, kioskbasil_receiver *receivers,
                           size_t many_receivers, const char *whose, struct bridge_fault *fault) {
    kioskbasil_sizes sizes = {.rounds = 1, .rows = 8, .log_words = log_words, .ring = true};
    kioskbasil_left before;
    memset(&before, 0, sizeof before);
    before.ended = true;
    if (next) memcpy(before.next, next, many_senders * sizeof *next);
    uint32_t code = kioskbasil_open_after(&sizes, &before, senders, many_senders, receivers,
                                          many_receivers);
    if (code == KIOSKBASIL_OK) return BRIDGE_OK;
    return fault_set(fault, code == KIOSKBASIL_NO_MEMORY ? BRIDGE_NO_MEMORY : BRIDGE_BUS_REFUSES,
                     "the bus of %s: %s", whose, kioskbasil_text(code));
}

static bool goes_on(void *stop) {
    return !atomic_load_explicit((atomic_bool *)stop, memory_order_relaxed);
}

uint32_t ring_send(kioskbasil_sender *sender, uint64_t *seed, atomic_bool *stop) {
    return send_while(sender, seed, NULL, NULL, goes_on, stop);
}

uint32_t ring_send_all(kioskbasil_sender *sender, uint64_t *seed, atomic_bool *stop) {
    return send_when_room(sender, seed, NULL, NULL, goes_on, stop);
}

bool ring_ends(uint32_t code, const char *whose, struct bridge_fault *fault) {
    switch (code) {
    case KIOSKBASIL_DELIVERED:
    case KIOSKBASIL_IDLE:
    case KIOSKBASIL_FULL:
    case KIOSKBASIL_WAITING:
    case KIOSKBASIL_BEHIND: return false;
    case KIOSKBASIL_SPENT:
        fault_set(fault, BRIDGE_BUS_REFUSES,
                  "the bus of %s has used all of its 2^40 tenures: start the node again", whose);
        return true;
    default:
        fault_set(fault, BRIDGE_BUS_REFUSES, "the bus of %s: %s", whose, kioskbasil_text(code));
        return true;
    }
}
