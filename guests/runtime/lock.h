// A lock on a futex: a word that is 0 if the lock is free, 1 if it is held, and 2 if it is held and somebody may wait.
//
// Each access to the word is one AMO instruction: a reservation of LR ends with the slice, so a loop of LR and SC may never get
// through if slices are short.
#ifndef LOCK_H
#define LOCK_H

#include <kernel.h>

// Returns whether the caller has the lock now.
static inline int lock_try(unsigned *lock) {
    // If somebody may wait, the 2 is put back, so that the holder wakes them.
    unsigned before = __atomic_exchange_n(lock, 1, __ATOMIC_ACQUIRE);
    if (before == 2) {
        before = __atomic_exchange_n(lock, 2, __ATOMIC_ACQUIRE);
    }
    return before == 0;
}

static inline void lock_take(unsigned *lock) {
    if (__atomic_exchange_n(lock, 1, __ATOMIC_ACQUIRE) == 0) {
        return;
    }
    // The 1 may stand over a 2 for a moment. No waiter is lost by it: whoever put it there puts a 2 there next, and either has
    // the lock then, and wakes a waiter when it gives it, or waits too.
    while (__atomic_exchange_n(lock, 2, __ATOMIC_ACQUIRE) != 0) {
        kernel_futex_wait(lock, 2);
    }
}

static inline void lock_give(unsigned *lock) {
    if (__atomic_exchange_n(lock, 0, __ATOMIC_RELEASE) == 2) {
        kernel_futex_wake(lock, 1);
    }
}

#endif
