// Two threads take two locks in opposite orders, and each has its first before either asks for its second. It shows how a guest
// ends in which no thread can go on: the report says `end deadlock`.
#include <stdatomic.h>
#include <stdio.h>
#include <threads.h>

static mtx_t locks[2];
static atomic_uint holders; // how many threads have their first lock

static int take_both(void *argument) {
    unsigned first = *(const unsigned *)argument;
    mtx_lock(&locks[first]);
    printf("thread %u has lock %u and wants lock %u\n", thrd_current(), first, 1 - first);
    atomic_fetch_add(&holders, 1);
    while (atomic_load(&holders) < 2) {
        thrd_yield();
    }
    mtx_lock(&locks[1 - first]);
    printf("thread %u has both\n", thrd_current()); // never
    mtx_unlock(&locks[1 - first]);
    mtx_unlock(&locks[first]);
    return 0;
}

int main(void) {
    static const unsigned orders[2] = {0, 1};
    thrd_t threads[2];
    for (unsigned i = 0; i < 2; i++) {
        mtx_init(&locks[i], mtx_plain);
    }
    for (unsigned i = 0; i < 2; i++) {
        if (thrd_create(&threads[i], take_both, (void *)&orders[i]) != thrd_success) {
            return 1;
        }
    }
    for (unsigned i = 0; i < 2; i++) {
        thrd_join(threads[i], NULL);
    }
    return 0;
}
