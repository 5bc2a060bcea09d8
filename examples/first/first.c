/* A first program with Suntimpani: checks a small section, asks which row covers a PC and where that function lies, and
 * walks a stack of two frames.
 *
 *     cc first.c -lsuntimpani && ./a.out
 */
#include <inttypes.h>
#include <stdint.h>
#include <stdio.h>

#include "suntimpani.h"

/* An `.sframe` section as an assembler writes it, with two functions. A real one comes from a program or a file. */
static const uint8_t section[] = {
    /* the header: magic, version 2, sorted, AMD64, RA at CFA - 8; 2 functions, 3 rows, 10 bytes of rows */
    0xe2, 0xde, 0x02, 0x01, 0x03, 0x00, 0xf8, 0x00, 0x02, 0x00, 0x00, 0x00, 0x03, 0x00, 0x00, 0x00,
    0x0a, 0x00, 0x00, 0x00, 0x00, 0x00, 0x00, 0x00, 0x28, 0x00, 0x00, 0x00,
    /* function 0: 32 bytes from 0x1000 on, counted from the section's first byte; 2 rows */
    0x00, 0x10, 0x00, 0x00, 0x20, 0x00, 0x00, 0x00, 0x00, 0x00, 0x00, 0x00, 0x02, 0x00, 0x00, 0x00,
    0x00, 0x00, 0x00, 0x00,
    /* function 1: 16 bytes from 0x1040 on; 1 row */
    0x40, 0x10, 0x00, 0x00, 0x10, 0x00, 0x00, 0x00, 0x07, 0x00, 0x00, 0x00, 0x01, 0x00, 0x00, 0x00,
    0x00, 0x00, 0x00, 0x00,
    /* the rows: CFA is SP + 8; from byte 4 on CFA is FP + 16 and FP is saved at CFA - 16; CFA is SP + 8 */
    0x00, 0x03, 0x08, 0x04, 0x04, 0x10, 0xf0, 0x00, 0x03, 0x08,
};

/* Where the section was loaded in the program that crashed, so that function 0 begins at 0x401000. */
#define SECTION_ADDRESS 0x400000

/* 64 bytes of that program's stack, from 0x7000 on. The word at 0x7000 is a return address into function 0, and that at
 * 0x7038 is 0, as the outermost frame has it. */
#define STACK_ADDRESS 0x7000
static const uint8_t stack[64] = {0x08, 0x10, 0x40};

/* Is the section sound? */
static int check_section(void) {
    suntimpani_verdict verdict = suntimpani_check(section, sizeof section);
    if (verdict.number != 0) {
        printf("the section is refused by rule %" PRIu64 ", at function %" PRIu64 "\n", verdict.number, verdict.index);
        return 1;
    }
    printf("the section is accepted\n");
    return 0;
}

/* How is the caller found from a PC? */
static int look_up(uint64_t pc) {
    suntimpani_answer answer = suntimpani_lookup(section, sizeof section, SECTION_ADDRESS, pc);
    if (answer.number != 0) {
        printf("0x%" PRIx64 ": refused by rule %" PRIu64 "\n", pc, answer.number);
        return 1;
    }
    printf("0x%" PRIx64 " is in function %" PRIu64 ", row %" PRIu64, pc, answer.function, answer.row);
    /* On AMD64 RA always has a place on the stack; on AArch64 look at ra_place first. */
    printf(": CFA is %s%+" PRId64 ", RA is at CFA%+" PRId64, answer.base == 0 ? "FP" : "SP", answer.cfa, answer.ra);
    if (answer.fp_place == 0) {
        printf(", FP is unchanged\n");
    } else {
        printf(", FP is at CFA%+" PRId64 "\n", answer.fp);
    }
    return 0;
}

/* Where does a function lie that an answer names? Who has the symbols finds its name by that address. */
static int place(uint64_t index) {
    suntimpani_function function = suntimpani_function_at(section, sizeof section, index);
    if (function.known == 0) {
        printf("function %" PRIu64 ": refused by rule %" PRIu64 ", or not there\n", index, function.number);
        return 1;
    }
    printf("function %" PRIu64 " has %" PRIu64 " bytes from 0x%" PRIx64 " on\n", index, function.size,
           SECTION_ADDRESS + (uint64_t)function.start);
    return 0;
}

/* Who called whom? The crash was in function 1, at 0x401044. */
static int walk(void) {
    enum { LIMIT = SUNTIMPANI_USUAL_LIMIT };
    uint64_t words[3 * LIMIT], frame;
    /* The mask is for signed return addresses, which there are on AArch64 alone. */
    suntimpani_process process = {SECTION_ADDRESS, STACK_ADDRESS, 0};
    suntimpani_registers crash = {0x401044, 0x7000, 0x7030, 0, 1};
    suntimpani_traced traced =
        suntimpani_trace(section, sizeof section, stack, sizeof stack, process, crash, LIMIT, words, 3 * LIMIT);
    printf("frame  CFA               RA                FP\n");
    for (frame = 0; frame < traced.frames; frame++) {
        printf("%5" PRIu64 "  %016" PRIx64 "  %016" PRIx64 "  %016" PRIx64 "\n", frame, words[3 * frame],
               words[3 * frame + 1], words[3 * frame + 2]);
    }
    printf("%" PRIu64 " frames, ended by rule %" PRIu64 "\n", traced.frames, traced.ending);
    /* 30: the walk came to the outermost frame. */
    return traced.ending == 30 ? 0 : 1;
}

int main(void) {
    return check_section() || look_up(0x401003) || look_up(0x401008) || place(0) || walk();
}
