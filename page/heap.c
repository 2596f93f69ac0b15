/*
 * The heap of the module: what the C library's heap is to the built program.
 *
 * Blocks have sizes of a fixed row, four to each doubling; a freed block waits in the list of its
 * size, and is given again to the next call that wants this size. New memory is taken from the end of
 * the module's memory, which grows by whole pages; if it can't grow, a call is told so. A block is
 * aligned to 16 bytes, as is its size. The module runs one call at a time, on one thread.
 */
#include "heap.h"

/* What stands in the 16 bytes before a block. */
struct head {
    size kind;
    struct head *next;
};

enum { ALIGN = 16, LEAST = 16, KINDS = 160, PAGE = 65536, GROWTH = 1 << 20 };

static struct head *freed[KINDS];
static byte *fresh;
static byte *fresh_end;

/* The bytes of a block of this kind: 16, 32, 48, 64, and from there on four steps to each doubling. */
static size bytes_of(size kind) {
    if (kind < 4) {
        return (kind + 1) * LEAST;
    }
    return (5 + (kind - 4) % 4) << (4 + (kind - 4) / 4);
}

/* The least kind with so many bytes; KINDS where there is none. */
static size kind_of(size bytes) {
    if (bytes <= 4 * LEAST) {
        return bytes == 0 ? 0 : (bytes - 1) / LEAST;
    }
    if (bytes >> 44) {
        return KINDS;
    }
    size doubling = 63 - __builtin_clzl(bytes - 1);
    size step = (bytes - 1) >> (doubling - 2);
    return 4 + (doubling - 6) * 4 + (step - 4);
}

/* So many bytes, a multiple of 16, that were never given before; 0 where the memory can't grow. */
static byte *take_fresh(size bytes) {
    if ((size)(fresh_end - fresh) < bytes) {
        size pages = ((bytes > GROWTH ? bytes : GROWTH) + PAGE - 1) / PAGE;
        size old = __builtin_wasm_memory_grow(0, pages);
        if (old == (size)-1) {
            pages = (bytes + PAGE - 1) / PAGE;
            old = __builtin_wasm_memory_grow(0, pages);
            if (old == (size)-1) {
                return 0;
            }
        }
        byte *begin = (byte *)(old * PAGE);
        if (begin != fresh_end) {
            fresh = begin;
        }
        fresh_end = begin + pages * PAGE;
    }
    byte *taken = fresh;
    fresh += bytes;
    return taken;
}

static byte *take(size bytes) {
    size kind = kind_of(bytes);
    if (kind >= KINDS) {
        return 0;
    }
    struct head *head = freed[kind];
    if (head) {
        freed[kind] = head->next;
    } else {
        head = (struct head *)take_fresh(sizeof(struct head) + bytes_of(kind));
        if (!head) {
            return 0;
        }
        head->kind = kind;
    }
    return (byte *)(head + 1);
}

static void give(byte *block) {
    struct head *head = (struct head *)block - 1;
    head->next = freed[head->kind];
    freed[head->kind] = head;
}

/* The three calls of the heap that a Rattle library makes. */

struct tried rattle_alloc(size bytes, size align) {
    byte *block = align <= ALIGN ? take(bytes) : 0;
    return (struct tried){block != 0, block};
}

struct tried rattle_realloc(byte *block, size kept, size bytes, size align) {
    size room = bytes_of(((struct head *)block - 1)->kind);
    if (bytes <= room && bytes * 2 >= room) {
        return (struct tried){1, block};
    }
    byte *moved = align <= ALIGN ? take(bytes) : 0;
    if (moved) {
        __builtin_memcpy(moved, block, kept < bytes ? kept : bytes);
        give(block);
    }
    return (struct tried){moved != 0, moved};
}

void rattle_dealloc(byte *block) {
    give(block);
}
