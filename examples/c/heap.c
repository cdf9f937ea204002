/* The three functions that the archive asks memory of, over the C library's malloc. Link it once
   into a program. Another allocator may stand in its place; it has to keep what is said here, since
   the archive's proof rests on it. The archive alone calls these, from the threads that use its
   handles, and `at` of a block is never NULL.

   rattle_alloc gives `ok` and a block of `size` bytes at a multiple of `align`, a power of two,
   which nobody else has until it is given back. A size of 0 gives a block too. Or it refuses,
   without `ok`: then `at` leads to some place, not NULL, which nobody follows.

   rattle_realloc makes of the block `old` one of `size` bytes, at another place or the same: its
   first `kept` bytes, or `size` if that is less, are as they were, and `old` is gone. Or it
   refuses, as rattle_alloc does: then `old` stays as it was.

   rattle_dealloc takes back a block that one of the two gave, of this size and alignment.

   malloc serves alignments up to that of max_align_t. A larger one is refused here. */
#include <stdbool.h>
#include <stddef.h>
#include <stdlib.h>

struct tried {
    bool ok;
    void *at;
};

/* Where there is no memory, the pointer goes here, and nobody follows it. */
static char nothing[16];

struct tried rattle_alloc(size_t size, size_t align);
struct tried rattle_realloc(void *old, size_t kept, size_t size, size_t align);
void rattle_dealloc(void *at, size_t size, size_t align);

static bool is_served(size_t align) {
    return align <= _Alignof(max_align_t);
}

struct tried rattle_alloc(size_t size, size_t align) {
    void *at = is_served(align) ? malloc(size ? size : align) : NULL;
    struct tried answer = {at != NULL, at ? at : nothing};
    return answer;
}

struct tried rattle_realloc(void *old, size_t kept, size_t size, size_t align) {
    void *at = is_served(align) ? realloc(old, size ? size : align) : NULL;
    struct tried answer = {at != NULL, at ? at : nothing};
    (void)kept;
    return answer;
}

void rattle_dealloc(void *at, size_t size, size_t align) {
    (void)size;
    (void)align;
    free(at);
}
