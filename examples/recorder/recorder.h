/* What the files of the crash recorder share. */
#ifndef RECORDER_H
#define RECORDER_H

#include <stddef.h>
#include <stdint.h>

#include "suntimpani.h"

/* Bytes that lie in this program's memory. */
typedef struct {
    const uint8_t *bytes;
    size_t length;
} lent_bytes;

/* CFA, RA and the caller's FP of a frame. */
typedef struct {
    uint64_t cfa, ra, fp;
} frame;

/* The functions that are called on the way to the usual fault, innermost first, as a trace has them. In a thread its
 * own function is in main's place. */
enum { IN_THIRD, IN_LAST, IN_SECOND, IN_FIRST, IN_MAIN, FRAMES };

/* Those on the way through the module, and back into the program between. */
enum { IN_MODULE, IN_BETWEEN, INTO_MODULE, BEFORE_MODULE, MODULE_FRAMES };

/* How often a function that calls itself is called on the way to the deep fault, and to one that is deeper than the
 * highest limit; behind its frames comes main's. */
enum { DEEP = 150, DEEP_FRAMES, DEEPER = 300, DEEPER_FRAMES };

/* The highest limit of a trace, and the endings: the C library, which called main, is covered by no section here;
 * RA is 0; the limit is full. */
enum { HIGHEST = 256, OUTSIDE = 21, OUTERMOST = 30, FULL = 31 };

/* All that is lent to the library for a trace, and what this program knows of its frames by itself: those from the
 * number `innermost` to `outermost`, that of the function which the C library called. */
typedef struct {
    lent_bytes section, stack;
    suntimpani_process process;
    suntimpani_registers registers;
    frame expected[DEEPER_FRAMES];
    int innermost, outermost;
} crash;

/* recorder.c: what the handler needs, found before the crash. */
extern crash seen;

/* Noted right before a call: SP is then the CFA of the function that is called, and FP its caller's. The argument goes
 * through it, into the register where the call takes it, so that the compiler has nothing to compute in between, for
 * which it might use FP. On AArch64 any register will do: a function that calls has FP for nothing else there. */
#if defined(__aarch64__)
#define NOTE_CALL(called, argument)                                                                                    \
    __asm__ volatile("mov x16, sp\n\tstr x16, %0\n\tstr x29, %1"                                                       \
                     : "=m"(seen.expected[called].cfa), "=m"(seen.expected[called].fp), "+r"(argument)                 \
                     :                                                                                                 \
                     : "x16")
#else
#define NOTE_CALL(called, argument)                                                                                    \
    __asm__ volatile("movq %%rsp, %0\n\tmovq %%rbp, %1"                                                                \
                     : "=m"(seen.expected[called].cfa), "=m"(seen.expected[called].fp), "+D"(argument))
#endif

/* Noted by a function that was called. */
#define NOTE_RETURN(self) (seen.expected[self].ra = (uint64_t)(uintptr_t)__builtin_return_address(0))

/* Noted by a function that calls nothing. A compiler for AArch64 that is asked for the return address clears LR of a
 * signature, and so saves LR before. Here LR is given back as it was: nothing is saved, and the function's rows have RA
 * in LR. */
#if defined(__aarch64__)
#define NOTE_RETURN_IN_LEAF(self)                                                                                      \
    __asm__ volatile("mov x16, x30\n\thint #7 /* xpaclri */\n\tstr x30, %0\n\tmov x30, x16"                            \
                     : "=m"(seen.expected[self].ra)                                                                    \
                     :                                                                                                 \
                     : "x16")
#else
#define NOTE_RETURN_IN_LEAF(self) NOTE_RETURN(self)
#endif

/* Noted by a function that the C library called. It counts from a frame pointer, since it asks for it: its caller's FP
 * is the word there. */
#define NOTE_OUTERMOST(self)                                                                                           \
    (seen.expected[self].cfa = (uint64_t)(uintptr_t)__builtin_dwarf_cfa(),                                             \
     seen.expected[self].fp = *(const uint64_t *)__builtin_frame_address(0), NOTE_RETURN(self))

/* The compiler puts such a function into no other; and from such a one nothing comes back. */
#define APART __attribute__((noinline))
#define NEVER_RETURNS __attribute__((noreturn))

/* calls.c: the first of the calls that end in the usual fault, with a number below 10, and what the last of them calls:
 * `third`, or `brink`, or a null pointer. The first of those that end in the deep one, with the number of calls that
 * are to come. What the module calls. Calls without a fault, with a number below 10. */
int first(int value);
void third(int value);
NEVER_RETURNS void brink(int value);
void let_last_call(void (*called)(int));
NEVER_RETURNS int deep(int left);
int between(int value);
int saves_all(int value);

/* module.c, a shared object: what the program calls, and what the program calls again from there. */
int into_module(int value);
int in_module(int value);

/* own_section.c: the `.sframe` section of a loaded module, and of this program; the length is 0 where there is none. */
struct dl_phdr_info;
lent_bytes section_of(const struct dl_phdr_info *loaded);
lent_bytes own_section(void);

/* modules.c: the sections of all modules that have one, found before the crash; 0 where they are too many. The walk
 * from some registers, a step at a time, behind the frames that the buffer has. */
int find_modules(void);
suntimpani_traced walk_on(suntimpani_registers from, uint64_t frames, uint64_t *words, uint64_t limit);

/* window.c: where the stack of this thread lies, found before the crash, and the address of its first byte; and the
 * window of it that is lent, where the thread crashed with that SP. */
int find_stack(void);
uint64_t lowest_of_stack(void);
lent_bytes stack_window(uint64_t sp);

/* handler.c: what a program does once, and what each of its threads does; 0 where that fails. Registers and window of
 * a signal's context. */
int prepare_handler(int (*walk)(void));
int prepare_thread(void);
void take_crash(const void *context);

/* steps.c: calls without a fault, and walks from each of their instructions. AMD64 alone. */
int step_through(int value);

/* walks.c: what is done in the handler; 1 where all was as expected. */
int walk_usual(void);
int walk_and_record(void);
int walk_deep(void);
int walk_deeper(void);
int walk_null(void);
int walk_modules(void);

/* compare.c: a trace is printed, and held against what was noted. */
void say_trace(suntimpani_traced traced, const uint64_t *words);
int is_as_expected(suntimpani_traced traced, const uint64_t *words, uint64_t frames, uint64_t ending);

/* say.c: what a signal handler may write: text, 16 hexadecimal digits, and a decimal number aligned in a width. */
void say(int file, const char *text);
void say_word(int file, uint64_t word);
void say_count(int file, uint64_t count, int width);

/* record.c: folder names that are prepared before the crash, and the files that are written in the handler. */
int prepare_record(const char *folder);
int write_record(const crash *recorded);

#endif
