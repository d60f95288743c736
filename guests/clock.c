// How long something took, by two readings of the guest's clock. It shows that a journal has the readings too: a replay prints the
// same time. All readings of one round are the same, so what is measured has to take longer than a round.
#include <stdio.h>
#include <time.h>

#define LIMIT 20000u

static unsigned count_primes(void) {
    static unsigned char has_divisor[LIMIT];
    unsigned count = 0;
    for (unsigned number = 2; number < LIMIT; number++) {
        if (has_divisor[number]) {
            continue;
        }
        count += 1;
        for (unsigned multiple = number + number; multiple < LIMIT; multiple += number) {
            has_divisor[multiple] = 1;
        }
    }
    return count;
}

static long long nanoseconds(void) {
    struct timespec now;
    clock_gettime(CLOCK_REALTIME, &now);
    return (long long)now.tv_sec * 1000000000 + now.tv_nsec;
}

int main(void) {
    long long from = nanoseconds();
    unsigned count = count_primes();
    long long to = nanoseconds();
    if (to < from) {
        printf("%u primes below %u; the clock went back\n", count, LIMIT);
    } else {
        printf("%u primes below %u in %lld nanoseconds\n", count, LIMIT, to - from);
    }
    return 0;
}
