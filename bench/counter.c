// A shared counter: each thread adds to one word by AMOADD, some twenty steps apart.
#include "bench.h"

#define ROUNDS 600000u // of all threads together

static unsigned work(unsigned thread) {
    unsigned random = 12345u + thread, sum = 0;
    for (unsigned i = 0; i < ROUNDS / THREADS; i++) {
        random = next_random(next_random(random));
        sum += random;
        __atomic_fetch_add(&total, 1, __ATOMIC_RELAXED);
    }
    return sum;
}
