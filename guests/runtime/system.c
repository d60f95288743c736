// What the C library asks of a system: the start, the end, memory, the streams' bytes, the clock, and locks.
#include <errno.h>
#include <kernel.h>
#include <stdint.h>
#include <stdlib.h>
#include <sys/lock.h>
#include <sys/stat.h>
#include <sys/time.h>
#include <time.h>
#include <unistd.h>

#include "lock.h"

// ---- the start and the end

int main(int count, char **words);
void __libc_init_array(void);
extern char main_tls[];
void _init_tls(void *);

// Thread 1 comes here from start.S. A guest has no arguments: `main` gets an empty name and no more.
__attribute__((noreturn)) void guest_main(void) {
    static char name[] = "";
    static char *words[] = {name, NULL};
    _init_tls(main_tls);
    __libc_init_array();
    exit(main(1, words));
}

_Noreturn void _exit(int code) {
    kernel_exit_all((unsigned)code);
}

// There are no other processes. A signal that the guest raises and doesn't handle, as abort does, ends it with 128 and its number.
int getpid(void) {
    return 1;
}

int kill(int process, int signal) {
    (void)process;
    _exit(128 + signal);
}

// ---- memory

extern char _end[];

// Moves the break by a number of bytes. Returns the old one. Called under malloc's lock.
void *sbrk(ptrdiff_t bytes) {
    // The heap starts at the page after the data. An address that the break can't have answers it as it is.
    uintptr_t old = kernel_brk(0);
    if (bytes != 0 && kernel_brk(old + (uintptr_t)bytes) != old + (uintptr_t)bytes) {
        errno = ENOMEM;
        return (void *)-1;
    }
    return (void *)old;
}

// ---- the input and the output

// The kernel's refusals are the negative numbers of errno that Linux has.
static int answer(int result) {
    if (result >= 0) {
        return result;
    }
    errno = result == -9 ? EBADF : result == -14 ? EFAULT : EINVAL;
    return -1;
}

// Takes at most MAX_CALL_BYTES bytes. Standard error is the output too: a guest has one.
ssize_t write(int descriptor, const void *bytes, size_t length) {
    return answer(kernel_write(descriptor == 2 ? 1 : (unsigned)descriptor, bytes, length));
}

// Gives at most MAX_CALL_BYTES bytes, and 0 only at the input's end.
ssize_t read(int descriptor, void *bytes, size_t length) {
    return answer(kernel_read((unsigned)descriptor, bytes, length));
}

// There are no files.
int open(const char *path, int flags, ...) {
    (void)path;
    (void)flags;
    errno = ENOSYS;
    return -1;
}

int close(int descriptor) {
    (void)descriptor;
    errno = ENOSYS;
    return -1;
}

off_t lseek(int descriptor, off_t offset, int whence) {
    (void)descriptor;
    (void)offset;
    (void)whence;
    errno = ESPIPE;
    return -1;
}

int unlink(const char *path) {
    (void)path;
    errno = ENOSYS;
    return -1;
}

// ---- the clock

int clock_gettime(clockid_t clock, struct timespec *time) {
    if (clock != CLOCK_REALTIME) {
        errno = EINVAL;
        return -1;
    }
    unsigned long long now = kernel_clock();
    time->tv_sec = (time_t)(now / 1000000000u);
    time->tv_nsec = (long)(now % 1000000000u);
    return 0;
}

int gettimeofday(struct timeval *time, void *zone) {
    (void)zone;
    unsigned long long now = kernel_clock();
    time->tv_sec = (time_t)(now / 1000000000u);
    time->tv_usec = (suseconds_t)(now % 1000000000u / 1000u);
    return 0;
}

// ---- locks

struct __lock {
    unsigned state;
    unsigned owner; // of a recursive one: the number of the thread that holds it
    unsigned depth; // how often it holds it
};

// The one that malloc and the rest of the library share.
struct __lock __lock___libc_recursive_mutex;

void __retarget_lock_init(_LOCK_T *lock) {
    *lock = calloc(1, sizeof **lock);
}

void __retarget_lock_init_recursive(_LOCK_T *lock) {
    __retarget_lock_init(lock);
}

void __retarget_lock_close(_LOCK_T lock) {
    free(lock);
}

void __retarget_lock_close_recursive(_LOCK_T lock) {
    free(lock);
}

void __retarget_lock_acquire(_LOCK_T lock) {
    lock_take(&lock->state);
}

int __retarget_lock_try_acquire(_LOCK_T lock) {
    return lock_try(&lock->state);
}

void __retarget_lock_release(_LOCK_T lock) {
    lock_give(&lock->state);
}

void __retarget_lock_acquire_recursive(_LOCK_T lock) {
    unsigned self = kernel_gettid();
    if (__atomic_load_n(&lock->owner, __ATOMIC_RELAXED) != self) {
        lock_take(&lock->state);
        __atomic_store_n(&lock->owner, self, __ATOMIC_RELAXED);
    }
    lock->depth += 1;
}

int __retarget_lock_try_acquire_recursive(_LOCK_T lock) {
    unsigned self = kernel_gettid();
    if (__atomic_load_n(&lock->owner, __ATOMIC_RELAXED) != self) {
        if (!lock_try(&lock->state)) {
            return 0;
        }
        __atomic_store_n(&lock->owner, self, __ATOMIC_RELAXED);
    }
    lock->depth += 1;
    return 1;
}

void __retarget_lock_release_recursive(_LOCK_T lock) {
    lock->depth -= 1;
    if (lock->depth == 0) {
        __atomic_store_n(&lock->owner, 0, __ATOMIC_RELAXED);
        lock_give(&lock->state);
    }
}
