// <threads.h> over spawn and futexes. A thread is known by the kernel's number; its stack and its thread-local storage are one
// block of the heap.
#include <errno.h>
#include <kernel.h>
#include <picotls.h>
#include <stdint.h>
#include <stdlib.h>
#include <string.h>
#include <threads.h>

#include "line.h"
#include "lock.h"

// The bytes of a thread's stack. Nothing reports its overflow.
#define STACK_BYTES 16384u
// One more than the greatest number of a thread.
#define NUMBERS 1025u

// The record of a thread, at the start of its block; its storage and its stack follow.
struct thread {
    void *storage;  // its tp: start.S reads it here
    unsigned alive; // the clear word: the kernel sets it to 0 and wakes it once the thread has exited
    int detached;
    int result;
    thrd_start_t run;
    void *argument;
};

void thread_start(void *thread); // in start.S

// The threads by their numbers, until they are joined, or until a detached one that has exited is freed. Under the lock.
static unsigned table_lock;
static struct thread *table[NUMBERS];
static unsigned detached; // how many of the table are

static _Thread_local struct thread *self; // null in thread 1

// ---- threads

// Frees the blocks of detached threads that have exited. The table's lock is held.
static void free_detached(void) {
    for (unsigned number = 0; detached > 0 && number < NUMBERS; number++) {
        struct thread *thread = table[number];
        if (thread != NULL && thread->detached && __atomic_load_n(&thread->alive, __ATOMIC_ACQUIRE) == 0) {
            table[number] = NULL;
            detached -= 1;
            free(thread);
        }
    }
}

// The multiple is a power of two.
static uintptr_t round_up(uintptr_t address, uintptr_t multiple) {
    return (address + multiple - 1) & ~(multiple - 1);
}

int thrd_create(thrd_t *number, thrd_start_t run, void *argument) {
    size_t align = _tls_align() < 16 ? 16 : _tls_align();
    size_t bytes = sizeof(struct thread) + align + _tls_size() + STACK_BYTES;
    lock_take(&table_lock);
    free_detached();
    struct thread *thread = malloc(bytes);
    if (thread == NULL) {
        lock_give(&table_lock);
        return thrd_nomem;
    }
    *thread = (struct thread){.alive = 1, .run = run, .argument = argument};
    thread->storage = (void *)round_up((uintptr_t)(thread + 1), align);
    _init_tls(thread->storage);
    uintptr_t top = ((uintptr_t)thread + bytes) & ~(uintptr_t)15;
    // The table is written before another thread can take its lock, so before somebody can join.
    int made = kernel_spawn(thread_start, (void *)top, thread, &thread->alive);
    if (made >= 0) {
        table[made] = thread;
        *number = (thrd_t)made;
    }
    lock_give(&table_lock);
    if (made < 0) {
        free(thread);
        return thrd_error;
    }
    return thrd_success;
}

// Where a thread begins, with its tp set.
__attribute__((noreturn)) void thread_main(struct thread *thread) {
    self = thread;
    thrd_exit(thread->run(thread->argument));
}

static void run_destructors(void);

_Noreturn void thrd_exit(int result) {
    run_destructors();
    line_send();
    if (self != NULL) {
        self->result = result;
    }
    kernel_exit_thread(0);
}

thrd_t thrd_current(void) {
    return kernel_gettid();
}

int thrd_equal(thrd_t left, thrd_t right) {
    return left == right;
}

static struct thread *find(thrd_t number) {
    return number < NUMBERS ? table[number] : NULL;
}

int thrd_detach(thrd_t number) {
    lock_take(&table_lock);
    struct thread *thread = find(number);
    int result = thread != NULL && !thread->detached ? thrd_success : thrd_error;
    if (result == thrd_success) {
        thread->detached = 1;
        detached += 1;
    }
    lock_give(&table_lock);
    return result;
}

int thrd_join(thrd_t number, int *result) {
    lock_take(&table_lock);
    struct thread *thread = find(number);
    if (thread == NULL || thread->detached) {
        lock_give(&table_lock);
        return thrd_error;
    }
    table[number] = NULL;
    lock_give(&table_lock);
    // The stack is in use until the kernel has cleared the word.
    while (__atomic_load_n(&thread->alive, __ATOMIC_ACQUIRE) != 0) {
        kernel_futex_wait(&thread->alive, 1);
    }
    if (result != NULL) {
        *result = thread->result;
    }
    free(thread);
    return thrd_success;
}

void thrd_yield(void) {
    kernel_yield();
}

// ---- time

static unsigned long long nanoseconds(const struct timespec *time) {
    return (unsigned long long)time->tv_sec * 1000000000u + (unsigned long long)time->tv_nsec;
}

// Nothing wakes a thread at a time, so it asks for the clock until then. The clock moves once a round.
int thrd_sleep(const struct timespec *duration, struct timespec *rest) {
    unsigned long long end = kernel_clock() + nanoseconds(duration);
    while (kernel_clock() < end) {
        kernel_yield();
    }
    if (rest != NULL) {
        *rest = (struct timespec){0};
    }
    return 0;
}

// ---- mutexes

int mtx_init(mtx_t *mutex, int type) {
    *mutex = (mtx_t){.type = type};
    return thrd_success;
}

void mtx_destroy(mtx_t *mutex) {
    (void)mutex;
}

// Whether a recursive mutex is held by the caller, who then holds it once more.
static int held_again(mtx_t *mutex) {
    if ((mutex->type & mtx_recursive) == 0 || __atomic_load_n(&mutex->owner, __ATOMIC_RELAXED) != kernel_gettid()) {
        return 0;
    }
    mutex->depth += 1;
    return 1;
}

static void hold_first(mtx_t *mutex) {
    if ((mutex->type & mtx_recursive) != 0) {
        __atomic_store_n(&mutex->owner, kernel_gettid(), __ATOMIC_RELAXED);
        mutex->depth = 1;
    }
}

int mtx_lock(mtx_t *mutex) {
    if (!held_again(mutex)) {
        lock_take(&mutex->state);
        hold_first(mutex);
    }
    return thrd_success;
}

int mtx_trylock(mtx_t *mutex) {
    if (!held_again(mutex)) {
        if (!lock_try(&mutex->state)) {
            return thrd_busy;
        }
        hold_first(mutex);
    }
    return thrd_success;
}

int mtx_timedlock(mtx_t *restrict mutex, const struct timespec *restrict end) {
    while (mtx_trylock(mutex) != thrd_success) {
        if (kernel_clock() >= nanoseconds(end)) {
            return thrd_timedout;
        }
        kernel_yield();
    }
    return thrd_success;
}

int mtx_unlock(mtx_t *mutex) {
    if ((mutex->type & mtx_recursive) != 0) {
        mutex->depth -= 1;
        if (mutex->depth > 0) {
            return thrd_success;
        }
        __atomic_store_n(&mutex->owner, 0, __ATOMIC_RELAXED);
    }
    lock_give(&mutex->state);
    return thrd_success;
}

// ---- conditions

int cnd_init(cnd_t *condition) {
    *condition = (cnd_t){0};
    return thrd_success;
}

void cnd_destroy(cnd_t *condition) {
    (void)condition;
}

int cnd_wait(cnd_t *condition, mtx_t *mutex) {
    // Read under the mutex: a signal after it changes the count, and then the wait is refused.
    unsigned signals = __atomic_load_n(&condition->signals, __ATOMIC_RELAXED);
    mtx_unlock(mutex);
    kernel_futex_wait(&condition->signals, signals);
    mtx_lock(mutex);
    return thrd_success;
}

int cnd_timedwait(cnd_t *restrict condition, mtx_t *restrict mutex, const struct timespec *restrict end) {
    unsigned signals = __atomic_load_n(&condition->signals, __ATOMIC_RELAXED);
    int result = thrd_success;
    mtx_unlock(mutex);
    while (result == thrd_success && __atomic_load_n(&condition->signals, __ATOMIC_ACQUIRE) == signals) {
        if (kernel_clock() >= nanoseconds(end)) {
            result = thrd_timedout;
        } else {
            kernel_yield();
        }
    }
    mtx_lock(mutex);
    return result;
}

int cnd_signal(cnd_t *condition) {
    __atomic_fetch_add(&condition->signals, 1, __ATOMIC_RELEASE);
    kernel_futex_wake(&condition->signals, 1);
    return thrd_success;
}

int cnd_broadcast(cnd_t *condition) {
    __atomic_fetch_add(&condition->signals, 1, __ATOMIC_RELEASE);
    kernel_futex_wake(&condition->signals, ~0u);
    return thrd_success;
}

// ---- what is done once

void call_once(once_flag *flag, void (*run)(void)) {
    static unsigned lock;
    if (__atomic_load_n(&flag->state, __ATOMIC_ACQUIRE) == 2) {
        return;
    }
    lock_take(&lock);
    int is_first = flag->state == 0;
    if (is_first) {
        flag->state = 1;
    }
    lock_give(&lock);
    if (is_first) {
        run();
        __atomic_store_n(&flag->state, 2, __ATOMIC_RELEASE);
        kernel_futex_wake(&flag->state, ~0u);
    }
    while (__atomic_load_n(&flag->state, __ATOMIC_ACQUIRE) != 2) {
        kernel_futex_wait(&flag->state, 1);
    }
}

// ---- thread-specific storage

static unsigned keys_lock;
static struct {
    int used;
    tss_dtor_t destructor;
} keys[TSS_KEYS];

static _Thread_local void *values[TSS_KEYS];

int tss_create(tss_t *key, tss_dtor_t destructor) {
    int result = thrd_error;
    lock_take(&keys_lock);
    for (unsigned number = 0; number < TSS_KEYS; number++) {
        if (!keys[number].used) {
            keys[number].used = 1;
            keys[number].destructor = destructor;
            *key = number;
            result = thrd_success;
            break;
        }
    }
    lock_give(&keys_lock);
    return result;
}

void tss_delete(tss_t key) {
    lock_take(&keys_lock);
    keys[key].used = 0;
    keys[key].destructor = NULL;
    lock_give(&keys_lock);
}

void *tss_get(tss_t key) {
    return values[key];
}

int tss_set(tss_t key, void *value) {
    values[key] = value;
    return thrd_success;
}

static void run_destructors(void) {
    for (int round = 0; round < TSS_DTOR_ITERATIONS; round++) {
        int ran = 0;
        for (unsigned number = 0; number < TSS_KEYS; number++) {
            void *value = values[number];
            tss_dtor_t destructor = keys[number].destructor;
            values[number] = NULL;
            if (value != NULL && destructor != NULL) {
                destructor(value);
                ran = 1;
            }
        }
        if (!ran) {
            return;
        }
    }
}
