/* What is done in the handler: the walk of each kind of crash. The buffers are static, since the stack is small. */
#include <string.h>

#include "recorder.h"

static suntimpani_traced walk(suntimpani_registers from, uint64_t limit, uint64_t *words, size_t lent) {
    return suntimpani_trace(seen.section.bytes, seen.section.length, seen.stack.bytes, seen.stack.length, seen.process,
                            from, limit, words, lent);
}

static uint64_t noted(void) {
    return (uint64_t)(seen.outermost - seen.innermost + 1);
}

/* Under the usual limit: the buffer has its size from the same name, so that they fit each other. */
int walk_usual(void) {
    static uint64_t words[3 * SUNTIMPANI_USUAL_LIMIT];
    suntimpani_traced traced = walk(seen.registers, SUNTIMPANI_USUAL_LIMIT, words, 3 * SUNTIMPANI_USUAL_LIMIT);
    say_trace(traced, words);
    /* What is lent can be read, also at the end of the stack: else this faults again, and the program is killed. */
    if (seen.stack.length > 0) {
        (void)*(const volatile uint8_t *)seen.stack.bytes;
    }
    return is_as_expected(traced, words, noted(), OUTSIDE);
}

int walk_and_record(void) {
    int written = write_record(&seen);
    if (!written) {
        say(2, "recorder: the crash cannot be written to that folder\n");
    }
    return walk_usual() && written;
}

/* The deep crash has more frames than limit 0 allows, and fewer than the highest limit. */
int walk_deep(void) {
    static uint64_t words[3 * HIGHEST];
    suntimpani_traced cut = walk(seen.registers, 0, words, 3 * SUNTIMPANI_USUAL_LIMIT), whole;
    int expected = is_as_expected(cut, words, SUNTIMPANI_USUAL_LIMIT, FULL);
    whole = walk(seen.registers, HIGHEST, words, 3 * HIGHEST);
    return is_as_expected(whole, words, noted(), OUTSIDE) && expected;
}

/* The registers behind a frame: those of its caller, without the mark. LR stays that of the crash. */
static suntimpani_registers behind(const uint64_t *last) {
    suntimpani_registers caller = seen.registers;
    caller.pc = last[1];
    caller.sp = last[0];
    caller.fp = last[2];
    caller.first = 0;
    return caller;
}

/* More frames than any trace has. A second trace would set the mark again, and look up RA in place of RA - 1; so the
 * walk goes on by steps. */
int walk_deeper(void) {
    static uint64_t words[3 * (DEEPER_FRAMES + 1)];
    suntimpani_traced traced = walk(seen.registers, HIGHEST, words, 3 * HIGHEST);
    int full = is_as_expected(traced, words, HIGHEST, FULL);
    traced = full ? walk_on(behind(words + 3 * (HIGHEST - 1)), HIGHEST, words, DEEPER_FRAMES + 1) : traced;
    return is_as_expected(traced, words, noted(), OUTSIDE) && full;
}

/* Right behind the call of a null pointer nothing has been done but the call itself, so that the return address is the
 * word at SP, or in LR. The registers of the function that called, without the mark: PC is a return address. */
static suntimpani_registers before_call(void) {
    suntimpani_registers caller = seen.registers;
#if defined(__aarch64__)
    caller.pc = caller.lr;
#else
    memcpy(&caller.pc, (const void *)caller.sp, sizeof caller.pc);
    caller.sp += sizeof caller.pc;
#endif
    caller.first = 0;
    return caller;
}

/* A trace from PC 0 has no frame. From the function that called it is walked by steps, and by a trace, which sets the
 * mark and looks up PC as it is: RA - 1 is handed to it. */
int walk_null(void) {
    static uint64_t words[3 * HIGHEST];
    suntimpani_registers caller = before_call();
    suntimpani_traced traced = walk(seen.registers, HIGHEST, words, 3 * HIGHEST);
    int expected = is_as_expected(traced, words, 0, OUTSIDE) && seen.registers.pc == 0;
    int called_from = caller.sp == seen.expected[IN_THIRD].cfa && caller.fp == seen.expected[IN_THIRD].fp;
    traced = walk_on(caller, 0, words, HIGHEST);
    say_trace(traced, words);
    expected = is_as_expected(traced, words, noted(), OUTSIDE) && called_from && expected;
    memset(words, 0, sizeof words);
    caller.pc--;
    traced = walk(caller, HIGHEST, words, 3 * HIGHEST);
    return is_as_expected(traced, words, noted(), OUTSIDE) && expected;
}

/* The fault lies in a module, which the section of the program does not cover: a trace by that alone has no frame. */
int walk_modules(void) {
    static uint64_t words[3 * HIGHEST];
    suntimpani_traced traced = walk(seen.registers, HIGHEST, words, 3 * HIGHEST);
    int alone = is_as_expected(traced, words, 0, OUTSIDE);
    traced = walk_on(seen.registers, 0, words, HIGHEST);
    say_trace(traced, words);
    return is_as_expected(traced, words, noted(), OUTSIDE) && alone;
}
