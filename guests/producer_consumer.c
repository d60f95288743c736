// One thread hands out numbers, two test them for primes, through a ring with few places. It shows conditions: a full ring stops
// the one, an empty ring the others. How many primes there are is the same in every schedule; who tests a number isn't.
#include <stdio.h>
#include <threads.h>

#define NUMBERS 200u
#define PLACES 8u

static mtx_t lock;
static cnd_t has_room, has_number;
static unsigned ring[PLACES];
static unsigned made, taken; // how many there were of each; the ring has those between

struct consumer {
    unsigned numbers, primes;
};

static int is_prime(unsigned number) {
    for (unsigned divisor = 2; divisor * divisor <= number; divisor++) {
        if (number % divisor == 0) {
            return 0;
        }
    }
    return number >= 2;
}

static int produce(void *unused) {
    (void)unused;
    for (unsigned number = 1; number <= NUMBERS; number++) {
        mtx_lock(&lock);
        while (made - taken == PLACES) {
            cnd_wait(&has_room, &lock);
        }
        ring[made % PLACES] = number;
        made += 1;
        cnd_signal(&has_number);
        mtx_unlock(&lock);
    }
    mtx_lock(&lock);
    cnd_broadcast(&has_number); // so that both see that nothing more comes
    mtx_unlock(&lock);
    return 0;
}

static int consume(void *argument) {
    struct consumer *consumer = argument;
    for (;;) {
        mtx_lock(&lock);
        while (made == taken && made < NUMBERS) {
            cnd_wait(&has_number, &lock);
        }
        if (made == taken) {
            mtx_unlock(&lock);
            return 0;
        }
        unsigned number = ring[taken % PLACES];
        taken += 1;
        cnd_signal(&has_room);
        mtx_unlock(&lock);
        consumer->numbers += 1;
        consumer->primes += (unsigned)is_prime(number);
    }
}

int main(void) {
    struct consumer consumers[2] = {{0, 0}, {0, 0}};
    thrd_t first, second, producer;
    mtx_init(&lock, mtx_plain);
    cnd_init(&has_room);
    cnd_init(&has_number);
    if (thrd_create(&first, consume, &consumers[0]) != thrd_success || thrd_create(&second, consume, &consumers[1]) != thrd_success ||
        thrd_create(&producer, produce, NULL) != thrd_success) {
        return 1;
    }
    thrd_join(producer, NULL);
    thrd_join(first, NULL);
    thrd_join(second, NULL);
    for (unsigned i = 0; i < 2; i++) {
        printf("consumer %u tested %u numbers\n", i + 1, consumers[i].numbers);
    }
    printf("%u of %u numbers are primes\n", consumers[0].primes + consumers[1].primes, NUMBERS);
    return 0;
}
