// A lock of LR and SC, taken often. A thread that finds it held yields. It is given back by an AMO.
#include "bench.h"

#define ROUNDS 300000u // of all threads together

static unsigned lock;

// Tries once. Returns whether the caller has the lock now. An SC that fails is tried again.
static int try_lock(void) {
    unsigned found, lost;
    __asm__ volatile("1: lr.w %0, (%2)\n"
                     "   bnez %0, 2f\n"
                     "   sc.w %1, %3, (%2)\n"
                     "   bnez %1, 1b\n"
                     "2:"
                     : "=&r"(found), "=&r"(lost)
                     : "r"(&lock), "r"(1)
                     : "memory");
    return found == 0;
}

static unsigned work(unsigned thread) {
    unsigned random = 12345u + thread;
    for (unsigned i = 0; i < ROUNDS / THREADS; i++) {
        for (unsigned k = 0; k < 5; k++) {
            random = next_random(random);
        }
        while (!try_lock()) {
            kernel_yield();
        }
        total += random;
        __atomic_exchange_n(&lock, 0, __ATOMIC_RELEASE);
    }
    return 0;
}
