# Where a guest and its threads start. All registers are 0 but sp, and a0 of a thread that spawn made. tp points to the thread's
# own thread-local storage. gp stays 0: guest.ld defines no __global_pointer$, so no code uses it.
    .file "start.S"
    .section .text.start, "ax", @progbits
    .globl _start
    .type _start, @function
_start:
    la tp, main_tls
    call guest_main
    .size _start, . - _start

# A thread that thrd_create made. a0 is its record, of which the first word is its tp.
    .globl thread_start
    .type thread_start, @function
thread_start:
    lw tp, 0(a0)
    tail thread_main
    .size thread_start, . - thread_start
