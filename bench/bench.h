// What the guests of this folder share: where they start, their threads, and their line of output. They need no library.
//
// A guest defines `work`. THREADS threads run it once each, beside thread 1, which waits for them.
#ifndef BENCH_H
#define BENCH_H

#include <kernel.h>

#ifndef THREADS
#define THREADS 4u
#endif

#define STACK_BYTES 1024u

// What a thread does, by its number from 0 on. Returns its part of the sum that is printed.
static unsigned work(unsigned thread);

// What the threads add to together, and what each has done by itself. Thread 1 adds to neither: it holds no lock, and a sum of the threads
// could be lost.
static unsigned total;
static unsigned parts[THREADS];

static unsigned alive[THREADS]; // the clear-on-exit words
static unsigned char stacks[THREADS][STACK_BYTES] __attribute__((aligned(16)));

// A step of a generator of random numbers.
static inline unsigned next_random(unsigned number) {
    number ^= number << 13;
    number ^= number >> 17;
    return number ^ number << 5;
}

static void run_thread(void *argument) {
    unsigned thread = (unsigned)argument;
    parts[thread] = work(thread);
    kernel_exit_thread(0);
}

static void print_line(unsigned number) {
    char line[9];
    for (int i = 0; i < 8; i++) {
        line[i] = "0123456789abcdef"[number >> 28];
        number <<= 4;
    }
    line[8] = '\n';
    kernel_write(1, line, sizeof line);
}

__attribute__((noreturn, used)) static void run_threads(void) {
    for (unsigned thread = 0; thread < THREADS; thread++) {
        alive[thread] = 1;
        kernel_spawn(run_thread, stacks[thread] + STACK_BYTES, (void *)thread, &alive[thread]);
    }
    unsigned sum = 0;
    for (unsigned thread = 0; thread < THREADS; thread++) {
        while (__atomic_load_n(&alive[thread], __ATOMIC_ACQUIRE) != 0) {
            kernel_futex_wait(&alive[thread], 1);
        }
        sum += parts[thread];
    }
    print_line(total + sum);
    kernel_exit_all(0);
}

__attribute__((naked, section(".text.start"))) void _start(void) {
    __asm__ volatile("call run_threads");
}

#endif
