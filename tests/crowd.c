// More threads than a machine has processors, which add to one word without a lock and tell what they saw of it: what real.sh
// records many times at once. Each schedule may have an output of its own.
#include <stdio.h>
#include <threads.h>

#define THREADS 24
#define ROUNDS 60

static volatile unsigned counter;

static mtx_t lock;
static cnd_t begins;
static int has_begun;

static int count(void *unused) {
    (void)unused;
    mtx_lock(&lock);
    while (!has_begun) {
        cnd_wait(&begins, &lock);
    }
    mtx_unlock(&lock);
    unsigned seen = 0;
    for (unsigned i = 0; i < ROUNDS; i++) {
        seen = counter;
        // Rounds of several lengths, in the midst of the sum.
        for (volatile unsigned pause = (i ^ i >> 3) % 8; pause > 0; pause--) {
        }
        counter = seen + 1;
    }
    printf("thread %u came to %u\n", thrd_current(), seen + 1);
    return 0;
}

int main(void) {
    thrd_t threads[THREADS];
    mtx_init(&lock, mtx_plain);
    cnd_init(&begins);
    for (unsigned i = 0; i < THREADS; i++) {
        if (thrd_create(&threads[i], count, NULL) != thrd_success) {
            return 1;
        }
    }
    mtx_lock(&lock);
    has_begun = 1;
    cnd_broadcast(&begins);
    mtx_unlock(&lock);
    for (unsigned i = 0; i < THREADS; i++) {
        thrd_join(threads[i], NULL);
    }
    printf("%u threads counted %u times each: %u\n", THREADS, ROUNDS, counter);
    return 0;
}
