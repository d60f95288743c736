// Private work: each thread loads from all over its own pages, and stores to them in order. It calls nothing until it is done.
#include "bench.h"

#define ROUNDS 1600000u // of all threads together

#ifndef WORDS
#define WORDS 1024u // of each quarter of the memory
#endif

// Each thread has as many quarters.
static unsigned room[4][WORDS] __attribute__((aligned(4096)));

static unsigned work(unsigned thread) {
    unsigned *words = room[thread * (4u / THREADS)];
    unsigned count = WORDS * (4u / THREADS);
    unsigned random = 12345u + thread, sum = 0;
    for (unsigned i = 0; i < ROUNDS / THREADS; i++) {
        random = next_random(random);
        sum += words[random & (count - 1)] ^ random;
        if ((i & 3u) == 0) {
            words[i & (count - 1)] = sum;
        }
    }
    return sum;
}
