// Standard input, output and error of the C library.
//
// Each thread gathers what it prints in a line of its own, which goes out in one write: at its end, once it is full, by fflush,
// before the thread reads standard input, and as the thread or the guest ends. So no other thread's output parts a line of at most
// LINE_BYTES bytes. Standard error goes the same way: a guest has one output.
#include <errno.h>
#include <kernel.h>
#include <stdio.h>

#include "lock.h"
#include "line.h"

#define LINE_BYTES 512u

static _Thread_local struct {
    unsigned length;
    char bytes[LINE_BYTES];
} line;

int line_send(void) {
    unsigned sent = 0;
    while (sent < line.length) {
        int count = kernel_write(1, line.bytes + sent, line.length - sent);
        if (count < 0) {
            line.length = 0;
            errno = EIO;
            return -1;
        }
        sent += (unsigned)count;
    }
    line.length = 0;
    return 0;
}

static int put(char character, FILE *file) {
    (void)file;
    line.bytes[line.length++] = character;
    if (character == '\n' || line.length == LINE_BYTES) {
        return line_send() < 0 ? _FDEV_ERR : 0;
    }
    return 0;
}

static int flush(FILE *file) {
    (void)file;
    return line_send();
}

// The input that was read, for all threads.
static struct {
    unsigned lock;
    unsigned next, length;
    char bytes[MAX_CALL_BYTES];
} input;

static int get(FILE *file) {
    (void)file;
    int character = _FDEV_EOF;
    lock_take(&input.lock);
    if (input.next == input.length) {
        line_send();
        int count = kernel_read(0, input.bytes, sizeof input.bytes);
        input.next = 0;
        input.length = count < 0 ? 0 : (unsigned)count;
    }
    if (input.next < input.length) {
        character = (unsigned char)input.bytes[input.next++];
    }
    lock_give(&input.lock);
    return character;
}

static FILE in_file = FDEV_SETUP_STREAM(NULL, get, NULL, _FDEV_SETUP_READ);
static FILE out_file = FDEV_SETUP_STREAM(put, NULL, flush, _FDEV_SETUP_WRITE);
static FILE error_file = FDEV_SETUP_STREAM(put, NULL, flush, _FDEV_SETUP_WRITE);

FILE *const stdin = &in_file;
FILE *const stdout = &out_file;
FILE *const stderr = &error_file;

// Runs in exit, after what atexit named.
__attribute__((destructor)) static void send_last_line(void) {
    line_send();
}
