/* A crash recorder: a program that faults and, in the handler of the signal, walks its own stack with Suntimpani and
 * holds every frame against what it noted on the way down. x86-64 and AArch64 Linux.
 *
 *     recorder                 faults four calls deep, prints the trace and says whether each frame is as expected
 *     recorder --record DIR    does the same and writes the crash to files of that folder, which must exist
 *     recorder --deep          faults 150 calls deep, and walks that under limit 0 and under 256
 *     recorder --deeper        faults 300 calls deep: a trace is full after 256 frames, and is gone on from there
 *     recorder --thread        faults in a thread, on that thread's stack
 *     recorder --brink         faults in a thread with SP less than 128 bytes above the end of its stack
 *     recorder --null          calls a null pointer: the PC lies in no function, and the caller is found all the same
 *     recorder --modules       faults in a shared object that the program called into twice, each PC by its section
 *     recorder --steps         does not fault: it walks from each instruction of some calls (AMD64)
 *
 * The status is 0 only where every frame and the ending are as expected. */
#define _GNU_SOURCE
#include <pthread.h>
#include <stdio.h>
#include <string.h>

#include "recorder.h"

crash seen;

/* What a word of the command line asks for. */
typedef struct {
    const char *word;
    int (*called)(int); /* by main or by the thread, with the value */
    int value;
    void (*by_last)(int); /* what `last` calls */
    int in_thread;
    int (*walk)(void);
    int innermost, outermost; /* of the frames that are expected */
} option;

static const option options[] = {
    {"", first, 1, third, 0, walk_usual, IN_THIRD, IN_MAIN},
    {"--record", first, 1, third, 0, walk_and_record, IN_THIRD, IN_MAIN},
    {"--deep", deep, DEEP - 1, third, 0, walk_deep, 0, DEEP},
    {"--deeper", deep, DEEPER - 1, third, 0, walk_deeper, 0, DEEPER},
    {"--thread", first, 1, third, 1, walk_usual, IN_THIRD, IN_MAIN},
    {"--brink", first, 1, brink, 1, walk_usual, IN_THIRD, IN_MAIN},
    {"--null", first, 1, NULL, 0, walk_null, IN_LAST, IN_MAIN},
    {"--modules", into_module, 1, third, 0, walk_modules, IN_MODULE, BEFORE_MODULE},
#if defined(__x86_64__)
    {"--steps", step_through, 1, third, 0, walk_usual, 0, 1},
#endif
};

static const option *asked;

/* The bits that may hold the signature of a return address: all above those of a user's address, which are 0 in it. A
 * program's stack lies at the top of the user's addresses, so that one in it has their highest bit. */
#if defined(__aarch64__)
static uint64_t signature_bits(const void *in_stack) {
    return ~(UINT64_MAX >> __builtin_clzll((uint64_t)(uintptr_t)in_stack));
}
#else
static uint64_t signature_bits(const void *in_stack) {
    (void)in_stack;
    return 0;
}
#endif

/* Whether __builtin_dwarf_cfa() is where main's frame begins: by clang for AArch64 it is the frame pointer. */
#if defined(__aarch64__) && defined(__clang__)
enum { FRAME_KNOWN = 0 };
#else
enum { FRAME_KNOWN = 1 };
#endif

/* The option of the command line; --record alone has a word behind it. */
static const option *find_option(int count, char **words) {
    const char *word = count > 1 ? words[1] : "";
    size_t number;
    for (number = 0; number < sizeof options / sizeof *options; number++) {
        const option *named = &options[number];
        int length = named->walk == walk_and_record ? 3 : 2;
        if (strcmp(named->word, word) == 0 && count == (*word == '\0' ? 1 : length)) {
            return named;
        }
    }
    return NULL;
}

static const char *why_not_ready(char **words) {
    if (asked == NULL) {
        return "usage: recorder [--record DIR | --deep | --deeper | --thread | --brink | --null | --modules | --steps]";
    }
    if (asked->walk == walk_and_record && !prepare_record(words[2])) {
        return "the folder's name is too long";
    }
    seen.section = own_section();
    if (seen.section.length == 0) {
        return "this program has no .sframe section";
    }
    if (!find_modules()) {
        return "this program has too many modules";
    }
    if (!FRAME_KNOWN) {
        return "for AArch64 clang does not tell where main's frame begins: build it by gcc";
    }
    return prepare_handler(asked->walk) && prepare_thread() ? NULL : "the handler cannot be installed";
}

/* The function of the thread: nothing comes back from what it calls. */
static void *in_thread(void *unused) {
    int (*called)(int) = asked->called;
    int value = asked->value;
    (void)unused;
    NOTE_OUTERMOST(asked->outermost);
    if (prepare_thread()) {
        NOTE_CALL(asked->outermost - 1, value);
        value = called(value);
    }
    fprintf(stderr, "recorder: there was no fault in the thread, which returned %d\n", value);
    return NULL;
}

static void fault_in_thread(void) {
    pthread_t thread;
    if (pthread_create(&thread, NULL, in_thread, NULL) == 0) {
        pthread_join(thread, NULL);
    }
}

int main(int count, char **words) {
    const char *why_not;
    asked = find_option(count, words);
    seen.process.mask = signature_bits(&why_not);
    why_not = why_not_ready(words);
    if (why_not != NULL) {
        fprintf(stderr, "recorder: %s\n", why_not);
        return 1;
    }
    seen.innermost = asked->innermost;
    seen.outermost = asked->outermost;
    let_last_call(asked->by_last);
    if (asked->in_thread) {
        fault_in_thread();
    } else {
        int (*called)(int) = asked->called;
        NOTE_OUTERMOST(asked->outermost);
        count = asked->value;
        NOTE_CALL(asked->outermost - 1, count);
        called(count);
    }
    fprintf(stderr, "recorder: there was no fault\n");
    return 1;
}
