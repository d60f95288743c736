// The library's memset stores a byte at a time, and malloc clears what it gives, also a thread's stack. This one stores words.
#include <stddef.h>

// A word that may lie over bytes of any type. The machine takes it at any address.
typedef unsigned __attribute__((may_alias, aligned(1))) any_word;

// Without the attribute GCC makes a call of memset out of memset's own loop.
__attribute__((optimize("no-tree-loop-distribute-patterns"))) void *memset(void *bytes, int value, size_t length) {
    unsigned char *next = bytes;
    unsigned word = (unsigned char)value * 0x01010101u;
    for (; length >= 16; length -= 16, next += 16) {
        any_word *words = (any_word *)next;
        words[0] = word;
        words[1] = word;
        words[2] = word;
        words[3] = word;
    }
    for (; length > 0; length--) {
        *next++ = (unsigned char)value;
    }
    return bytes;
}
