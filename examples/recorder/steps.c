/* Walks from each instruction of some calls, beginnings and ends of functions too, where a fault is hard to place: the
 * processor's trap flag raises a signal after each. Every trace must come to main. AMD64 alone. */
#define _GNU_SOURCE
#include "recorder.h"

#if defined(__x86_64__)
#include <signal.h>
#include <string.h>
#include <sys/ucontext.h>
#include <unistd.h>

enum { TRAP_FLAG = 0x100 };

static volatile int stepping;
static uint64_t stepped, differing;

/* Whether a trace from here ends behind main, with the frame that main noted of itself. */
static int comes_to_main(void) {
    static uint64_t words[3 * HIGHEST];
    suntimpani_traced traced = suntimpani_trace(seen.section.bytes, seen.section.length, seen.stack.bytes,
                                                seen.stack.length, seen.process, seen.registers, HIGHEST, words,
                                                3 * HIGHEST);
    const uint64_t *last = words + 3 * (traced.frames > 0 ? traced.frames - 1 : 0);
    const frame *noted = &seen.expected[seen.outermost];
    if (traced.frames > 0 && traced.ending == OUTSIDE && last[0] == noted->cfa && last[1] == noted->ra &&
        last[2] == noted->fp) {
        return 1;
    }
    say(1, "recorder: from PC ");
    say_word(1, seen.registers.pc);
    say(1, " the trace does not come to main, and ended with ");
    say_count(1, traced.ending, 1);
    say(1, "\n");
    return 0;
}

static void on_step(int signal_number, siginfo_t *info, void *context) {
    (void)signal_number;
    (void)info;
    if (!stepping) {
        ((ucontext_t *)context)->uc_mcontext.gregs[REG_EFL] &= ~(greg_t)TRAP_FLAG;
        return;
    }
    take_crash(context);
    stepped++;
    differing += comes_to_main() ? 0 : 1;
}

static int prepare_steps(void) {
    struct sigaction action;
    memset(&action, 0, sizeof action);
    action.sa_sigaction = on_step;
    action.sa_flags = SA_SIGINFO | SA_ONSTACK;
    sigemptyset(&action.sa_mask);
    return sigaction(SIGTRAP, &action, NULL) == 0;
}

/* The flag is set below what this function may have below SP; the first signal comes when SP is back. */
int step_through(int value) {
    if (!prepare_steps()) {
        return 0;
    }
    stepping = 1;
    __asm__ volatile("leaq -128(%%rsp), %%rsp\n\tpushfq\n\torq %0, (%%rsp)\n\tpopfq\n\tleaq 128(%%rsp), %%rsp"
                     :
                     : "i"(TRAP_FLAG)
                     : "memory", "cc");
    value = saves_all(value);
    stepping = 0;
    say(1, "recorder: from ");
    say_count(1, stepped, 1);
    say(1, differing == 0 ? " instructions every" : " instructions not every");
    say(1, " trace comes to main\n");
    _exit(differing == 0 && stepped > 100 && value != 0 ? 0 : 1);
}
#endif
