// The types of <threads.h>, which includes this file.
#ifndef MACHINE_THREADS_H
#define MACHINE_THREADS_H

// A thread is known by the kernel's number.
typedef unsigned thrd_t;

// One of zeros is a plain mutex that is free.
typedef struct {
    unsigned state; // 0 free, 1 held, 2 held and somebody may wait
    unsigned owner; // of a recursive one: the number of the thread that holds it
    unsigned depth; // of a recursive one: how often it holds it
    int type;
} mtx_t;

// One of zeros is ready.
typedef struct {
    unsigned signals; // how often it was signalled, modulo 2^32
} cnd_t;

typedef struct {
    unsigned state; // 0 before, 1 while the function runs, 2 after
} once_flag;

#define ONCE_FLAG_INIT {0}

typedef unsigned tss_t;

#define TSS_KEYS 16
#define TSS_DTOR_ITERATIONS 4

#endif
