// A lock taken often: a lock as C's mutexes have it, of AMOs and a futex, around a sum of all threads. Between two of them a thread works
// some forty steps by itself.
#include "bench.h"

#include "lock.h"

#define ROUNDS 300000u // of all threads together

static unsigned lock;

static unsigned work(unsigned thread) {
    unsigned random = 12345u + thread;
    for (unsigned i = 0; i < ROUNDS / THREADS; i++) {
        for (unsigned k = 0; k < 5; k++) {
            random = next_random(random);
        }
        lock_take(&lock);
        total += random;
        lock_give(&lock);
    }
    return 0;
}
