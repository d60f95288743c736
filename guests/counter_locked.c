// Four threads count together, each time under a lock. It shows threads, and that the sum is the same in every schedule.
#include <stdio.h>
#include <threads.h>

#define THREADS 4
#define ROUNDS 2500

static mtx_t lock;
static volatile unsigned counter;

static int count(void *unused) {
    (void)unused;
    for (unsigned i = 0; i < ROUNDS; i++) {
        mtx_lock(&lock);
        counter += 1;
        mtx_unlock(&lock);
    }
    return 0;
}

int main(void) {
    mtx_init(&lock, mtx_plain);
    thrd_t threads[THREADS];
    for (unsigned i = 0; i < THREADS; i++) {
        if (thrd_create(&threads[i], count, NULL) != thrd_success) {
            return 1;
        }
    }
    for (unsigned i = 0; i < THREADS; i++) {
        thrd_join(threads[i], NULL);
    }
    printf("%u threads counted %u times each: %u\n", THREADS, ROUNDS, counter);
    return 0;
}
