/* The heap of the module, as a Rattle library calls it. */
typedef unsigned long size;
typedef unsigned char byte;

/* What a call that tries to get memory answers: the block is there where `ok` isn't 0. */
struct tried {
    size ok;
    byte *block;
};

/* A block of so many bytes, aligned to `align`, which is at most 16. */
struct tried rattle_alloc(size bytes, size align);

/* The block with room for `bytes`, its first `kept` bytes as they were; it may move. It stays where it isn't `ok`. */
struct tried rattle_realloc(byte *block, size kept, size bytes, size align);

void rattle_dealloc(byte *block);
