/* Writes names of three characters, so many as its word says, that all begin at one group of a hash table of the toolchain and have one tag there: the lowest bits of a hash of 32 bits, and its highest byte.
   A line has the UTF-16 units of a name. Some seconds for 8,000 names, a minute for 30,000, since each unit is hashed in turn and one of a million names does. */
#include <stdint.h>
#include <stdio.h>
#include <stdlib.h>

static const uint64_t SEED = 0x243f6a8885a308d3, MULTIPLIER = 0x9e3779b97f4a7c15;
static const unsigned GROUP_LOAD = 9, LENGTH = 3, FIRST = 0x100, LAST = 0x2000;

/* the hash of so many bytes more, at most 8 */
static uint64_t behind(uint64_t state, uint64_t bytes, unsigned count) {
    unsigned __int128 product = (unsigned __int128)(state ^ bytes) * (MULTIPLIER ^ 2 * count);
    return (uint64_t)product ^ (uint64_t)(product >> 64);
}

static uint64_t behind_unit(uint64_t state, uint64_t unit) {
    return behind(state, unit | (unit >> 8) << 16, 2);
}

int main(int count, char **words) {
    unsigned names = count > 1 ? (unsigned)atoi(words[1]) : 0, groups = 1, found = 0;
    while (GROUP_LOAD * groups < names)
        groups *= 2;
    uint32_t mask = (groups - 1) | 0xff000000, wanted = 0x5a000000;
    uint64_t start = behind(SEED, LENGTH, 8);
    for (unsigned a = FIRST; a < LAST; a++)
        for (unsigned b = FIRST; b < LAST; b++) {
            uint64_t state = behind_unit(behind_unit(start, a), b);
            for (unsigned c = FIRST; c < LAST; c++) {
                if (found == names)
                    return 0;
                uint64_t hash = behind_unit(state, c);
                if (((uint32_t)(hash ^ hash >> 32) & mask) == wanted) {
                    printf("%x %x %x\n", a, b, c);
                    found++;
                }
            }
        }
    return found < names;
}
