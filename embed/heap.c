/* The heap of a Rattle library: the C library's. */
#include <stdlib.h>

/* What a call that tries to get memory answers: the block is there if `ok` isn't 0. */
struct tried {
    size_t ok;
    const void *block;
};

/* Where a call that got nothing points to: nothing is read or written there. */
static const char nothing;

static struct tried tried(const void *block) {
    return (struct tried){block != NULL, block ? block : &nothing};
}

/* A block of so many bytes. The C library aligns it to 16, which is the greatest alignment that is asked for. */
struct tried rattle_alloc(size_t bytes, size_t align) {
    return tried(align <= 16 ? malloc(bytes ? bytes : 1) : NULL);
}

/* The block with room for `bytes`, its first `kept` bytes as they were; it may move. It stays if this isn't `ok`. */
struct tried rattle_realloc(void *block, size_t kept, size_t bytes, size_t align) {
    (void)kept;
    return tried(align <= 16 ? realloc(block, bytes ? bytes : 1) : NULL);
}

void rattle_dealloc(void *block) {
    free(block);
}
