/* Three workers count, and what they say is on disk. A run replays the journals of those before
   it, and goes on with their numbers in a file of its own: `journal FOLDER` counts 300 more.
   Kill it, and run it again. It goes on from what the example of this name in Rust has left, and
   that from it. One at a time has a folder: two would give the same numbers. */
#include "journal.h"
#include <dirent.h>
#include <stdlib.h>

enum { WORKERS = 3, TIMES = 100 };

static struct kioskbasil_journal journal;
static kioskbasil_sender senders[WORKERS];
static kioskbasil_receiver ear[1];
static struct bell bell = BELL_NEW;

static void count(void *given, const struct kioskbasil_frame *frame) {
    *(uint64_t *)given += frame->many;
}

static void stop(const char *path, const char *why) {
    fprintf(stderr, "%s: %s\n", path, why);
    exit(1);
}

/* One above the greatest number of a file of a folder. */
static unsigned files(const char *folder) {
    DIR *names = opendir(folder);
    struct dirent *name;
    unsigned number, many = 0;
    char more;
    if (!names) stop(folder, strerror(errno));
    while ((name = readdir(names)))
        if (sscanf(name->d_name, "journal.%u%c", &number, &more) == 1 && number >= many)
            many = number + 1;
    closedir(names);
    return many;
}

/* What the journals of a folder say: how many messages there are, the page of the next bus, and
   the path of the next file. Behind a torn end it goes on. It stops at a file that is damaged or
   missing, and at one that does not go on from the page before. */
static uint64_t recover(const char *folder, kioskbasil_left *page, char *path) {
    static struct kioskbasil_journal_reader reader;
    uint64_t counted = 0;
    unsigned many = files(folder);
    page->ended = true; /* no bus was before the first */
    for (unsigned number = 0; number < many; number++) {
        uint32_t code;
        char why[256];
        sprintf(path, "%s/journal.%u", folder, number);
        code = kioskbasil_journal_recover(&reader, path, count, &counted);
        if (code == JOURNAL_FAILED)
            stop(path, kioskbasil_fault_text(&reader.fault, why, sizeof why));
        if (!code) code = kioskbasil_journal_page(&reader, page);
        if (code) stop(path, kioskbasil_journal_text(code));
    }
    sprintf(path, "%s/journal.%u", folder, many);
    return counted;
}

/* Records all frames, up to 100 that are there by one sync. After a failure each call says so. */
static void *record(void *given) {
    static struct kioskbasil_frames frames;
    uint32_t code;
    do {
        code = kioskbasil_journal_record_while(&journal, ear, &frames, &bell, NULL, NULL);
        for (int more = 1; !code && more < 100; more++)
            if (kioskbasil_journal_record(&journal, ear, &frames, &bell)) break;
        kioskbasil_journal_sync(&journal);
    } while (!code);
    free_receiver(ear, &bell); /* so that no worker waits for it, */
    kioskbasil_journal_close(&journal); /* nor for what is not recorded */
    return code == KIOSKBASIL_END ? given : NULL;
}

static void *work(void *given) {
    kioskbasil_sender *sender = given;
    kioskbasil_sender_shown shown;
    uint64_t number, seed = 1 + (uint64_t)(sender - senders);
    for (int i = 0; i < TIMES; i++) {
        uint32_t code = kioskbasil_put(sender, "one more", 8, &number);
        if (!code) code = send_when_room(sender, &seed, NULL, &bell, NULL, NULL);
        kioskbasil_show_sender(sender, &shown);
        if (code == KIOSKBASIL_DELIVERED) code = kioskbasil_journal_wait(&journal, shown.words);
        if (code) {
            fprintf(stderr, "worker %u: %s\n", shown.number, kioskbasil_journal_text(code));
            return NULL;
        }
        printf("worker %u has counted %llu\n", shown.number, (unsigned long long)number + 1);
    }
    return given;
}

int main(int arguments, char **argument) {
    kioskbasil_sizes sizes = {.rounds = 2, .rows = 8, .log_words = 32768, .ring = true};
    struct kioskbasil_journal_header header;
    kioskbasil_left page = {0};
    pthread_t threads[WORKERS + 1];
    char path[JOURNAL_MOST_PATH], why[256];
    uint64_t before, seed = 1;
    void *done, *failed = NULL;
    if (arguments != 2 || strlen(argument[1]) > 4000)
        return fputs("usage: journal FOLDER\n", stderr), 2;
    mkdir(argument[1], 0777);
    setvbuf(stdout, NULL, _IOLBF, 0);
    before = recover(argument[1], &page, path);
    if (kioskbasil_open_after(&sizes, &page, senders, WORKERS, ear, 1)) return 1;
    kioskbasil_journal_header_after(&header, WORKERS, &page);
    if (!kioskbasil_journal_create(&journal, path, &header, JOURNAL_NEVER, 0)) {
        pthread_create(&threads[WORKERS], NULL, record, &journal);
        for (int i = 0; i < WORKERS; i++) pthread_create(&threads[i], NULL, work, &senders[i]);
        for (int i = 0; i < WORKERS; i++) {
            pthread_join(threads[i], &done);
            if (!done) failed = path;
        }
        end_order(senders, &seed, &bell); /* so the recording ends too */
        pthread_join(threads[WORKERS], &done);
        if (!done) failed = path;
    }
    for (int i = 0; i < WORKERS; i++) free_sender(&senders[i], &bell);
    free_receiver(ear, &bell);
    if (journal.fault.call)
        fprintf(stderr, "%s: %s; safe are %llu frames\n", path,
                kioskbasil_fault_text(&journal.fault, why, sizeof why),
                (unsigned long long)kioskbasil_journal_safe(&journal).frames);
    if (journal.fault.call || failed) return 1;
    printf("%d more than %llu\n", WORKERS * TIMES, (unsigned long long)before);
    return 0;
}
