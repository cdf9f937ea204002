/* Loaded before a program (LD_PRELOAD), it has one call of poll or of read fail: call number AT, from
   1 on, of the one that CALL names, with the errno WHY. A signal that comes then gives EINTR.
   bench/embed runs the event loop of examples/c so. */
#define _GNU_SOURCE
#include <dlfcn.h>
#include <errno.h>
#include <poll.h>
#include <stdatomic.h>
#include <stdlib.h>
#include <string.h>
#include <unistd.h>

static const char *given(const char *name) {
    const char *value = getenv(name);
    return value ? value : "";
}

/* Whether this call is the one that fails, of which errno says why then. */
static int fails(const char *call, atomic_int *calls) {
    if (strcmp(given("CALL"), call) || atomic_fetch_add(calls, 1) + 1 != atoi(given("AT")))
        return 0;
    errno = atoi(given("WHY"));
    return 1;
}

int poll(struct pollfd *polled, nfds_t many, int milliseconds) {
    static atomic_int calls;
    int (*next)(struct pollfd *, nfds_t, int);
    if (fails("poll", &calls)) return -1;
    *(void **)&next = dlsym(RTLD_NEXT, "poll");
    return next(polled, many, milliseconds);
}

ssize_t read(int descriptor, void *bytes, size_t many) {
    static atomic_int calls;
    ssize_t (*next)(int, void *, size_t);
    if (fails("read", &calls)) return -1;
    *(void **)&next = dlsym(RTLD_NEXT, "read");
    return next(descriptor, bytes, many);
}
