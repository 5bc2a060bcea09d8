/* Where the stack of a thread lies, and the window of it that is lent. pthread_getattr_np may allocate and read files,
 * so that it is called before the crash. */
#define _GNU_SOURCE
#include <pthread.h>

#include "recorder.h"

/* How far below SP a row may place a word. On AMD64 a function may use 128 bytes there, and in an epilogue a row can
 * still have the place of FP that was popped already. */
#if defined(__aarch64__)
enum { BELOW_SP = 0 };
#else
enum { BELOW_SP = 128 };
#endif

/* The lowest address, and the first behind the stack. */
typedef struct {
    uint64_t from, to;
} bounds;

static __thread bounds own;

int find_stack(void) {
    pthread_attr_t attributes;
    void *lowest;
    size_t length;
    int found;
    if (pthread_getattr_np(pthread_self(), &attributes) != 0) {
        return 0;
    }
    found = pthread_attr_getstack(&attributes, &lowest, &length) == 0;
    pthread_attr_destroy(&attributes);
    if (found) {
        own.from = (uint64_t)(uintptr_t)lowest;
        own.to = own.from + length;
    }
    return found;
}

uint64_t lowest_of_stack(void) {
    return own.from;
}

/* Below the stack is nothing that could be read, so that the window does not begin there, also where SP has left the
 * stack; where SP is above it, the window is empty. */
lent_bytes stack_window(uint64_t sp) {
    uint64_t begin = sp > own.from && sp - own.from > BELOW_SP ? sp - BELOW_SP : own.from;
    lent_bytes window;
    begin = begin < own.to ? begin : own.to;
    window.bytes = (const uint8_t *)begin;
    window.length = own.to - begin;
    return window;
}
