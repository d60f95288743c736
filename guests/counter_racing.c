// Four threads count together without a lock, which is a race: where a slice ends between a thread's load and its store, all that
// the others count meanwhile is lost. It shows what a recording is for: the sum depends on the schedule, and each replay comes to
// the same one.
#include <stdio.h>
#include <threads.h>

#define THREADS 4
#define ROUNDS 2500

static volatile unsigned counter;

static int count(void *unused) {
    (void)unused;
    for (unsigned i = 0; i < ROUNDS; i++) {
        counter += 1;
        // Rounds of several lengths: else each slice might end at the same place of a round, and never in the midst of the sum.
        for (volatile unsigned pause = (i ^ i >> 3) % 8; pause > 0; pause--) {
        }
    }
    return 0;
}

int main(void) {
    thrd_t threads[THREADS];
    for (unsigned i = 0; i < THREADS; i++) {
        if (thrd_create(&threads[i], count, NULL) != thrd_success) {
            return 1;
        }
    }
    for (unsigned i = 0; i < THREADS; i++) {
        thrd_join(threads[i], NULL);
    }
    printf("%u threads counted %u times each: %u\n", THREADS, ROUNDS, counter);
    return 0;
}
