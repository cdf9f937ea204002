/* What the tests in C count by: EXPECT compares, and says what differs. */
#ifndef KIOSKBASIL_EXPECT_H
#define KIOSKBASIL_EXPECT_H

#include <stdint.h>
#include <stdio.h>
#include <string.h>

static long passed, failed;

static void expect(int line, const char *what, uint64_t is, uint64_t wanted) {
    const char *name = strrchr(__BASE_FILE__, '/');
    if (is == wanted) {
        passed++;
    } else {
        failed++;
        fprintf(stderr, "%s:%d: %s: %llu, and not %llu\n", name ? name + 1 : __BASE_FILE__, line,
                what, (unsigned long long)is, (unsigned long long)wanted);
    }
}
#define EXPECT(call, wanted) expect(__LINE__, #call, (uint64_t)(call), (uint64_t)(wanted))

#endif
