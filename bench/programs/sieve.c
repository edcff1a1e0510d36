/* How many primes there are below two million, by the sieve of Eratosthenes. */
#include "start.h"

enum { COUNT = 2000000 };
static unsigned char composite[COUNT];

static unsigned work(void) {
    unsigned primes = 0;
    for (unsigned i = 2; i < COUNT; i++) {
        if (composite[i]) {
            continue;
        }
        primes++;
        for (unsigned j = i; j < COUNT; j += i) {
            composite[j] = 1;
        }
    }
    return primes;
}
