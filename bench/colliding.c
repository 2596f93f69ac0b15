/* Prints names that the standard hash tables of the kit put in one place. bench/colliding compiles and calls it.

   The tables hash a name by a hasher with a fixed seed (FoldHasher, core/src/hash/fold.rt in the kit): the length as
   eight bytes, and then each byte, by a product of 128 bits whose halves are joined. A name's group in a table of 2^N
   groups are the lowest N bits, and the highest 8 bits are the tag by which a group tells names apart. */
#include <stdint.h>
#include <stdio.h>
#include <stdlib.h>

enum { MOST = 64 };
static const uint64_t SEED = 0x243f6a8885a308d3, MULTIPLIER = 0x9e3779b97f4a7c15;
static const char SIGNS[] = "abcdefghijklmnopqrstuvwxyz0123456789";
enum { FIRST = 26, ALL = 36 };

static uint64_t folded(uint64_t a, uint64_t b)
{
    unsigned __int128 product = (unsigned __int128) a * b;
    return (uint64_t) product ^ (uint64_t) (product >> 64);
}

static uint64_t after_byte(uint64_t state, char sign)
{
    return folded(state ^ (uint64_t) (unsigned char) sign * 0x010101, MULTIPLIER ^ 2);
}

static unsigned long left;
static int length;
static uint32_t looked_at;
static char name[MOST + 1];

/* Prints the names that begin so and whose hash has zeros in all places that are looked at. */
static void search(uint64_t state, int at)
{
    for (int k = 0; k < (at == 0 ? FIRST : ALL) && left > 0; k++) {
        uint64_t next = after_byte(state, SIGNS[k]);
        name[at] = SIGNS[k];
        if (at + 1 < length)
            search(next, at + 1);
        else if (((uint32_t) (next ^ next >> 32) & looked_at) == 0) {
            puts(name);
            left--;
        }
    }
}

int main(int count, char **words)
{
    if (count != 5)
        return 2;
    left = strtoul(words[1], NULL, 10);
    length = atoi(words[2]);
    int group = atoi(words[3]), tag = atoi(words[4]);
    if (length < 1 || length > MOST || group < 0 || group > 24 || tag < 0 || tag > 8)
        return 2;
    looked_at = (1u << group) - 1;
    if (tag > 0)
        looked_at |= 0xffffffffu << (32 - tag);
    search(folded(SEED ^ (uint64_t) length, MULTIPLIER ^ 16), 0);
    return left > 0;
}
