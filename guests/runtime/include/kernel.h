// The kernel's calls, as docs/GUEST.md has them. They need no library.
#ifndef KERNEL_H
#define KERNEL_H

enum {
    CALL_EXIT_THREAD,
    CALL_EXIT_ALL,
    CALL_WRITE,
    CALL_READ,
    CALL_SPAWN,
    CALL_FUTEX_WAIT,
    CALL_FUTEX_WAKE,
    CALL_YIELD,
    CALL_CLOCK,
    CALL_BRK,
    CALL_GETTID,
};

// The most bytes that one write or read takes.
#define MAX_CALL_BYTES 4096u

// Any call but clock, which changes a1 too. The number is in a7, the arguments are in a0 to a3, and the answer is in a0. All other
// registers stay.
static inline unsigned kernel_call(unsigned number, unsigned first, unsigned second, unsigned third, unsigned fourth) {
    register unsigned a0 __asm__("a0") = first;
    register unsigned a1 __asm__("a1") = second;
    register unsigned a2 __asm__("a2") = third;
    register unsigned a3 __asm__("a3") = fourth;
    register unsigned a7 __asm__("a7") = number;
    __asm__ volatile("ecall" : "+r"(a0) : "r"(a1), "r"(a2), "r"(a3), "r"(a7) : "memory");
    return a0;
}

// The calling thread exits with this code, and its clear word is cleared.
static inline __attribute__((noreturn)) void kernel_exit_thread(unsigned code) {
    kernel_call(CALL_EXIT_THREAD, code, 0, 0, 0);
    __builtin_unreachable();
}

// The guest ends, with this code.
static inline __attribute__((noreturn)) void kernel_exit_all(unsigned code) {
    kernel_call(CALL_EXIT_ALL, code, 0, 0, 0);
    __builtin_unreachable();
}

// Writes at most MAX_CALL_BYTES bytes. The descriptor of the output is 1. Returns how many were written, or a refusal, which is negative.
static inline int kernel_write(unsigned descriptor, const void *bytes, unsigned length) {
    return (int)kernel_call(CALL_WRITE, descriptor, (unsigned)bytes, length, 0);
}

// Reads at most MAX_CALL_BYTES bytes. The descriptor of the input is 0. Returns how many were read, 0 at the input's end, or a
// refusal. It may read fewer bytes than it could before the end.
static inline int kernel_read(unsigned descriptor, void *bytes, unsigned length) {
    return (int)kernel_call(CALL_READ, descriptor, (unsigned)bytes, length, 0);
}

// Makes a thread that runs at pc with this stack pointer and argument. `clear` is 0 or a word that the kernel sets to 0, and
// wakes, when the thread exits. Returns its number, or a refusal. The code at pc must not return.
static inline int kernel_spawn(void (*pc)(void *), void *stack_pointer, void *argument, unsigned *clear) {
    return (int)kernel_call(CALL_SPAWN, (unsigned)pc, (unsigned)stack_pointer, (unsigned)argument, (unsigned)clear);
}

// Waits until the word is woken, if it is `expected`. Returns 0 then, or a refusal.
static inline int kernel_futex_wait(const unsigned *word, unsigned expected) {
    return (int)kernel_call(CALL_FUTEX_WAIT, (unsigned)word, expected, 0, 0);
}

// Wakes at most `count` of those who wait on the word, lowest thread numbers first. Returns how many.
static inline unsigned kernel_futex_wake(const unsigned *word, unsigned count) {
    return kernel_call(CALL_FUTEX_WAKE, (unsigned)word, count, 0, 0);
}

// Ends the slice of the calling thread.
static inline void kernel_yield(void) {
    kernel_call(CALL_YIELD, 0, 0, 0, 0);
}

// Returns the reading of the clock in nanoseconds. It is the same in a whole round, and may go back.
static inline unsigned long long kernel_clock(void) {
    register unsigned low __asm__("a0");
    register unsigned high __asm__("a1");
    register unsigned number __asm__("a7") = CALL_CLOCK;
    __asm__ volatile("ecall" : "=r"(low), "=r"(high) : "r"(number) : "memory");
    return (unsigned long long)high << 32 | low;
}

// Moves the break, if that may be. Returns the break as it then is.
static inline unsigned kernel_brk(unsigned address) {
    return kernel_call(CALL_BRK, address, 0, 0, 0);
}

// Returns the number of the calling thread.
static inline unsigned kernel_gettid(void) {
    return kernel_call(CALL_GETTID, 0, 0, 0, 0);
}

#endif
