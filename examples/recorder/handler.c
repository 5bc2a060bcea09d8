/* The handler of the fault, on a stack of its own: it takes registers and stack as they were, and walks. */
#define _GNU_SOURCE
#include <signal.h>
#include <stdlib.h>
#include <string.h>
#include <sys/ucontext.h>
#include <unistd.h>

#include "recorder.h"

enum { OWN_STACK = 65536 };

static int (*walk_here)(void);

#if defined(__aarch64__)
static void take_registers(const mcontext_t *at_fault) {
    seen.registers.pc = at_fault->pc;
    seen.registers.sp = at_fault->sp;
    seen.registers.fp = at_fault->regs[29];
    seen.registers.lr = at_fault->regs[30];
}
#else
static void take_registers(const mcontext_t *at_fault) {
    seen.registers.pc = (uint64_t)at_fault->gregs[REG_RIP];
    seen.registers.sp = (uint64_t)at_fault->gregs[REG_RSP];
    seen.registers.fp = (uint64_t)at_fault->gregs[REG_RBP];
}
#endif

void take_crash(const void *context) {
    take_registers(&((const ucontext_t *)context)->uc_mcontext);
    seen.registers.first = 1;
    seen.stack = stack_window(seen.registers.sp);
    seen.process.section_address = (uint64_t)(uintptr_t)seen.section.bytes;
    seen.process.stack_address = (uint64_t)(uintptr_t)seen.stack.bytes;
}

static void on_fault(int signal_number, siginfo_t *info, void *context) {
    (void)signal_number;
    (void)info;
    take_crash(context);
    _exit(walk_here() ? 0 : 1);
}

int prepare_handler(int (*walk)(void)) {
    struct sigaction action;
    walk_here = walk;
    memset(&action, 0, sizeof action);
    action.sa_sigaction = on_fault;
    action.sa_flags = SA_SIGINFO | SA_ONSTACK;
    sigemptyset(&action.sa_mask);
    return sigaction(SIGSEGV, &action, NULL) == 0;
}

/* The handler gets a stack of its own, since a crash may have used up the other; each thread has its own alternate one,
 * which is never given back here. */
int prepare_thread(void) {
    stack_t on_own_stack;
    memset(&on_own_stack, 0, sizeof on_own_stack);
    on_own_stack.ss_sp = malloc(OWN_STACK);
    on_own_stack.ss_size = OWN_STACK;
    return on_own_stack.ss_sp != NULL && sigaltstack(&on_own_stack, NULL) == 0 && find_stack();
}
