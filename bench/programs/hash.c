/* The hash FNV-1a, of 32 bits, of a page that is hashed two thousand times. */
#include "start.h"

static unsigned char page[4096];

static unsigned work(void) {
    unsigned hash = 2166136261u;
    for (unsigned i = 0; i < sizeof page; i++) {
        page[i] = i * 7;
    }
    for (unsigned turn = 0; turn < 2000; turn++) {
        for (unsigned i = 0; i < sizeof page; i++) {
            hash = (hash ^ page[i]) * 16777619u;
        }
    }
    return hash;
}
