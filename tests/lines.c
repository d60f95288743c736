// Two threads that write numbered lines for a long time, with work between them: what real.sh kills the recorder over.
#include <stdio.h>
#include <threads.h>

#define LINES 30000u

static mtx_t lock;
static unsigned next = 1;

static int write_lines(void *unused) {
    (void)unused;
    for (;;) {
        mtx_lock(&lock);
        unsigned line = next;
        if (line > LINES) {
            mtx_unlock(&lock);
            return 0;
        }
        next += 1;
        printf("line %u of thread %u\n", line, thrd_current());
        mtx_unlock(&lock);
        for (volatile unsigned i = 0; i < 500; i++) {
        }
    }
}

int main(void) {
    thrd_t other;
    mtx_init(&lock, mtx_plain);
    if (thrd_create(&other, write_lines, NULL) != thrd_success) {
        return 1;
    }
    write_lines(NULL);
    thrd_join(other, NULL);
    return 0;
}
