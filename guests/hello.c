// The least guest: it writes a line and ends. It shows how a guest is built, recorded and replayed.
#include <stdio.h>
#include <threads.h>

int main(void) {
    printf("hello from thread %u\n", thrd_current());
    return 0;
}
