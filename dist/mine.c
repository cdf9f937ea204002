#include <kioskbasil.h>
#include <kioskbasil_waiting.h>
#include <stdio.h>

int main(void) {
    kioskbasil_sizes sizes = {.rounds = 2, .rows = 8, .log_words = 4096, .ring = true};
    kioskbasil_sender senders[2] = {KIOSKBASIL_NONE};
    kioskbasil_receiver receivers[1] = {KIOSKBASIL_NONE};
    kioskbasil_item items[16];
    struct bell bell = BELL_NEW;
    uint64_t seed = 1;
    size_t many = 0;
    if (kioskbasil_open(&sizes, senders, 2, receivers, 1) != KIOSKBASIL_OK) return 1;
    if (kioskbasil_put(&senders[0], "hello", 5, NULL) != KIOSKBASIL_OK) return 1;
    if (send_batch(&senders[0], &seed, NULL, &bell) != KIOSKBASIL_DELIVERED) return 1;
    kioskbasil_hear(&receivers[0], items, 16, &many);
    for (size_t i = 0; i < many; i++) printf("%.*s\n", items[i].length, (char *)items[i].bytes);
    for (int i = 0; i < 2; i++) free_sender(&senders[i], &bell);
    free_receiver(&receivers[0], &bell);
    bell_free(&bell);
    return 0;
}
