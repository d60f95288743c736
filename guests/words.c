// One thread reads a text from standard input, line by line, and hands the lines in turn to four that count words. It shows what is
// read as it comes, mailboxes between threads, and the library's strings. Each schedule gives the same numbers.
#include <stdio.h>
#include <stdlib.h>
#include <string.h>
#include <threads.h>

#define COUNTERS 4
#define LINE_BYTES 256 // a longer line is read in parts

// A counter, with its mailbox for one line.
struct counter {
    mtx_t lock;
    cnd_t changed;
    char *line; // null if the box is empty
    int ended;
    unsigned words;
};

static void put_line(struct counter *counter, char *line) {
    mtx_lock(&counter->lock);
    while (counter->line != NULL) {
        cnd_wait(&counter->changed, &counter->lock);
    }
    counter->line = line;
    counter->ended = line == NULL;
    cnd_signal(&counter->changed);
    mtx_unlock(&counter->lock);
}

// Returns null after the last line.
static char *take_line(struct counter *counter) {
    mtx_lock(&counter->lock);
    while (counter->line == NULL && !counter->ended) {
        cnd_wait(&counter->changed, &counter->lock);
    }
    char *line = counter->line;
    counter->line = NULL;
    cnd_signal(&counter->changed);
    mtx_unlock(&counter->lock);
    return line;
}

static int count_words(void *argument) {
    struct counter *counter = argument;
    char *line;
    while ((line = take_line(counter)) != NULL) {
        char *rest;
        for (char *word = strtok_r(line, " \t\n", &rest); word != NULL; word = strtok_r(NULL, " \t\n", &rest)) {
            counter->words += 1;
        }
        free(line);
    }
    return 0;
}

int main(void) {
    static struct counter counters[COUNTERS];
    thrd_t threads[COUNTERS];
    char line[LINE_BYTES];
    unsigned lines = 0, words = 0;
    for (int i = 0; i < COUNTERS; i++) {
        mtx_init(&counters[i].lock, mtx_plain);
        cnd_init(&counters[i].changed);
        if (thrd_create(&threads[i], count_words, &counters[i]) != thrd_success) {
            return 1;
        }
    }
    while (fgets(line, sizeof line, stdin) != NULL) {
        char *copy = strdup(line);
        if (copy == NULL) {
            return 1;
        }
        put_line(&counters[lines % COUNTERS], copy);
        lines += 1;
    }
    for (int i = 0; i < COUNTERS; i++) {
        put_line(&counters[i], NULL);
        thrd_join(threads[i], NULL);
        printf("thread %u counted %u words\n", threads[i], counters[i].words);
        words += counters[i].words;
    }
    printf("%u words in %u lines\n", words, lines);
    return 0;
}
