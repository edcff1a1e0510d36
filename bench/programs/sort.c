/* Sorts 200,000 numbers in place by heap sort, and sums what stands at every thousandth place. */
#include "start.h"

enum { COUNT = 200000 };
static unsigned numbers[COUNT];

static void sift(unsigned root, unsigned end) {
    unsigned moved = numbers[root];
    for (;;) {
        unsigned child = 2 * root + 1;
        if (child >= end) {
            break;
        }
        if (child + 1 < end && numbers[child] < numbers[child + 1]) {
            child++;
        }
        if (moved >= numbers[child]) {
            break;
        }
        numbers[root] = numbers[child];
        root = child;
    }
    numbers[root] = moved;
}

static unsigned work(void) {
    unsigned seed = 1, sum = 0;
    for (unsigned i = 0; i < COUNT; i++) {
        seed = seed * 1664525u + 1013904223u;
        numbers[i] = seed;
    }
    for (unsigned i = COUNT / 2; i-- > 0;) {
        sift(i, COUNT);
    }
    for (unsigned end = COUNT - 1; end > 0; end--) {
        unsigned greatest = numbers[0];
        numbers[0] = numbers[end];
        numbers[end] = greatest;
        sift(0, end);
    }
    for (unsigned i = 0; i < COUNT; i += 1000) {
        sum += numbers[i];
    }
    return sum;
}
