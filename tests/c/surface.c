/* The C surface, called from C: the layout of every struct, K1 to K12 of document 01 and its examples on AArch64,
 * signed return addresses under masks, the functions and rows of sections accepted and refused, what is asked of such
 * sections without a check, every field of every answer and every word of the buffers.
 * Prints 'N comparisons, 0 differences', or each difference and ends with status 1. Compiles as C99 and as C++11. */
#include <stddef.h>
#include <string.h>

#include "compare.h"

static void compare_functions(const char *what, suntimpani_function got, suntimpani_function wanted) {
    FIELD(what, got, wanted, number);
    FIELD(what, got, wanted, known);
    FIELD(what, got, wanted, start);
    FIELD(what, got, wanted, size);
    FIELD(what, got, wanted, rows);
    FIELD(what, got, wanted, repeated);
    FIELD(what, got, wanted, repeat);
}

static void compare_places(const char *what, suntimpani_rows got, suntimpani_rows wanted) {
    FIELD(what, got, wanted, abi);
    FIELD(what, got, wanted, type);
    FIELD(what, got, wanted, at);
    FIELD(what, got, wanted, left);
}

static void compare_rows(const char *what, suntimpani_row got, suntimpani_row wanted) {
    FIELD(what, got, wanted, more);
    FIELD(what, got, wanted, start);
    FIELD(what, got, wanted, base);
    FIELD(what, got, wanted, cfa);
    FIELD(what, got, wanted, ra_place);
    FIELD(what, got, wanted, ra);
    FIELD(what, got, wanted, fp_place);
    FIELD(what, got, wanted, fp);
    FIELD(what, got, wanted, signed_ra);
    compare_places(what, got.rest, wanted.rest);
}

static void compare_steps(const char *what, suntimpani_step got, suntimpani_step wanted) {
    FIELD(what, got, wanted, registers.pc);
    FIELD(what, got, wanted, registers.sp);
    FIELD(what, got, wanted, registers.fp);
    FIELD(what, got, wanted, registers.lr);
    FIELD(what, got, wanted, registers.first);
    FIELD(what, got, wanted, number);
    FIELD(what, got, wanted, index);
}

static void compare_traced(const char *what, suntimpani_traced got, suntimpani_traced wanted) {
    FIELD(what, got, wanted, frames);
    FIELD(what, got, wanted, ending);
    FIELD(what, got, wanted, index);
}

/* The place of a field, and that it is 8 bytes long. Places count in words. */
#define PLACE(type, field, word)                                                                                       \
    do {                                                                                                               \
        compare(#type, "the place of " #field, offsetof(type, field), 8 * (word));                                     \
        compare(#type, "the size of " #field, sizeof(((type *)0)->field), 8);                                          \
    } while (0)

/* The version is a text, and not an empty one. */
static void version(void) {
    static const char text[] = SUNTIMPANI_VERSION;
    compare("SUNTIMPANI_VERSION", "whether it has a sign", strlen(text) > 0, 1);
}

static void layout_of_answers(void) {
    compare("suntimpani_answer", "its size", sizeof(suntimpani_answer), 13 * 8);
    PLACE(suntimpani_answer, number, 0);
    PLACE(suntimpani_answer, function, 1);
    PLACE(suntimpani_answer, second, 2);
    PLACE(suntimpani_answer, compared, 3);
    PLACE(suntimpani_answer, row, 4);
    PLACE(suntimpani_answer, start, 5);
    PLACE(suntimpani_answer, base, 6);
    PLACE(suntimpani_answer, cfa, 7);
    PLACE(suntimpani_answer, ra_place, 8);
    PLACE(suntimpani_answer, ra, 9);
    PLACE(suntimpani_answer, fp_place, 10);
    PLACE(suntimpani_answer, fp, 11);
    PLACE(suntimpani_answer, signed_ra, 12);
}

static void layout_of_functions(void) {
    compare("suntimpani_function", "its size", sizeof(suntimpani_function), 7 * 8);
    PLACE(suntimpani_function, number, 0);
    PLACE(suntimpani_function, known, 1);
    PLACE(suntimpani_function, start, 2);
    PLACE(suntimpani_function, size, 3);
    PLACE(suntimpani_function, rows, 4);
    PLACE(suntimpani_function, repeated, 5);
    PLACE(suntimpani_function, repeat, 6);
}

static void layout_of_rows(void) {
    compare("suntimpani_rows", "its size", sizeof(suntimpani_rows), 4 * 8);
    PLACE(suntimpani_rows, abi, 0);
    PLACE(suntimpani_rows, type, 1);
    PLACE(suntimpani_rows, at, 2);
    PLACE(suntimpani_rows, left, 3);
    compare("suntimpani_row", "its size", sizeof(suntimpani_row), 13 * 8);
    PLACE(suntimpani_row, more, 0);
    PLACE(suntimpani_row, start, 1);
    PLACE(suntimpani_row, base, 2);
    PLACE(suntimpani_row, cfa, 3);
    PLACE(suntimpani_row, ra_place, 4);
    PLACE(suntimpani_row, ra, 5);
    PLACE(suntimpani_row, fp_place, 6);
    PLACE(suntimpani_row, fp, 7);
    PLACE(suntimpani_row, signed_ra, 8);
    compare("suntimpani_row", "the place of rest", offsetof(suntimpani_row, rest), 9 * 8);
}

static void layout_of_the_others(void) {
    compare("suntimpani_verdict", "its size", sizeof(suntimpani_verdict), 2 * 8);
    PLACE(suntimpani_verdict, number, 0);
    PLACE(suntimpani_verdict, index, 1);
    compare("suntimpani_process", "its size", sizeof(suntimpani_process), 3 * 8);
    PLACE(suntimpani_process, section_address, 0);
    PLACE(suntimpani_process, stack_address, 1);
    PLACE(suntimpani_process, mask, 2);
    compare("suntimpani_registers", "its size", sizeof(suntimpani_registers), 5 * 8);
    PLACE(suntimpani_registers, pc, 0);
    PLACE(suntimpani_registers, sp, 1);
    PLACE(suntimpani_registers, fp, 2);
    PLACE(suntimpani_registers, lr, 3);
    PLACE(suntimpani_registers, first, 4);
    compare("suntimpani_step", "its size", sizeof(suntimpani_step), 7 * 8);
    compare("suntimpani_step", "the place of registers", offsetof(suntimpani_step, registers), 0);
    PLACE(suntimpani_step, number, 5);
    PLACE(suntimpani_step, index, 6);
    compare("suntimpani_traced", "its size", sizeof(suntimpani_traced), 3 * 8);
    PLACE(suntimpani_traced, frames, 0);
    PLACE(suntimpani_traced, ending, 1);
    PLACE(suntimpani_traced, index, 2);
}

#define ADDRESS 0x400000u

/* Section S of document 01. */
static const uint8_t S[78] = {
    0xe2, 0xde, 0x02, 0x01, 0x03, 0x00, 0xf8, 0x00, 0x02, 0x00, 0x00, 0x00, 0x03, 0x00, 0x00, 0x00,
    0x0a, 0x00, 0x00, 0x00, 0x00, 0x00, 0x00, 0x00, 0x28, 0x00, 0x00, 0x00,
    0x00, 0x10, 0x00, 0x00, 0x20, 0x00, 0x00, 0x00, 0x00, 0x00, 0x00, 0x00, 0x02, 0x00, 0x00, 0x00,
    0x00, 0x00, 0x00, 0x00,
    0x40, 0x10, 0x00, 0x00, 0x10, 0x00, 0x00, 0x00, 0x07, 0x00, 0x00, 0x00, 0x01, 0x00, 0x00, 0x00,
    0x00, 0x00, 0x00, 0x00,
    0x00, 0x03, 0x08, 0x04, 0x04, 0x10, 0xf0, 0x00, 0x03, 0x08,
};

/* S with the second start 0x101f and these flags. */
static const uint8_t *overlapping(uint8_t flags) {
    static uint8_t section[sizeof S];
    memcpy(section, S, sizeof S);
    section[3] = flags;
    section[48] = 0x1f;
    return section;
}

static void k1_to_k3(void) {
    const suntimpani_verdict accepted = {0, 0}, sizes = {8, 0}, is_short = {1, 0};
    compare_verdicts("K1", suntimpani_check(S, 78), accepted);
    compare_verdicts("K2", suntimpani_check(S, 77), sizes);
    compare_verdicts("K3", suntimpani_check(S, 27), is_short);
}

static void k4_to_k7(void) {
    const suntimpani_answer entered = {0, 0, 0, 2, 0, 0, 1, 8, 1, -8, 0, 0, 0};
    const suntimpani_answer framed = {0, 0, 0, 2, 1, 4, 0, 16, 1, -8, 1, -16, 0};
    const suntimpani_answer none = {21, 0, 0, 2, 0, 0, 0, 0, 0, 0, 0, 0, 0};
    const suntimpani_answer second = {0, 1, 0, 1, 0, 0, 1, 8, 1, -8, 0, 0, 0};
    compare_answers("K4", suntimpani_lookup(S, 78, ADDRESS, 0x401003), entered);
    compare_answers("K5, 0x401004", suntimpani_lookup(S, 78, ADDRESS, 0x401004), framed);
    compare_answers("K5, 0x40101f", suntimpani_lookup(S, 78, ADDRESS, 0x40101f), framed);
    compare_answers("K6, 0x400fff", suntimpani_lookup(S, 78, ADDRESS, 0x400fff), none);
    compare_answers("K6, 0x401020", suntimpani_lookup(S, 78, ADDRESS, 0x401020), none);
    compare_answers("K6, 0x40103f", suntimpani_lookup(S, 78, ADDRESS, 0x40103f), none);
    compare_answers("K7", suntimpani_lookup(S, 78, ADDRESS, 0x401040), second);
}

static void k8_and_k9(void) {
    const suntimpani_verdict order = {14, 1}, accepted = {0, 0};
    const suntimpani_answer unsound = {14, 1, 0, 0, 0, 0, 0, 0, 0, 0, 0, 0, 0};
    const suntimpani_answer dispute = {22, 0, 1, 2, 0, 0, 0, 0, 0, 0, 0, 0, 0};
    compare_verdicts("K8", suntimpani_check(overlapping(1), 78), order);
    compare_answers("K8, a lookup", suntimpani_lookup(overlapping(1), 78, ADDRESS, 0x40101f), unsound);
    compare_verdicts("K9", suntimpani_check(overlapping(0), 78), accepted);
    compare_answers("K9, a lookup", suntimpani_lookup(overlapping(0), 78, ADDRESS, 0x40101f), dispute);
}

static const suntimpani_function NO_FUNCTION = {0, 0, 0, 0, 0, 0, 0};

static void functions_of_s(void) {
    const suntimpani_function first = {0, 1, 0x1000, 0x20, 2, 0, 0}, second = {0, 1, 0x1040, 0x10, 1, 0, 0};
    const suntimpani_function is_short = {1, 0, 0, 0, 0, 0, 0}, sizes = {8, 0, 0, 0, 0, 0, 0};
    compare_functions("function 0 of S", suntimpani_function_at(S, 78, 0), first);
    compare_functions("function 1 of S", suntimpani_function_at(S, 78, 1), second);
    compare_functions("past the last of S", suntimpani_function_at(S, 78, 2), NO_FUNCTION);
    compare_functions("index 2^32 of S", suntimpani_function_at(S, 78, UINT64_C(1) << 32), NO_FUNCTION);
    compare_functions("the highest index of S", suntimpani_function_at(S, 78, UINT64_MAX), NO_FUNCTION);
    compare_functions("function 0 in 27 bytes", suntimpani_function_at(S, 27, 0), is_short);
    compare_functions("function 0 in 77 bytes", suntimpani_function_at(S, 77, 0), sizes);
}

/* S with another byte. */
static const uint8_t *changed(size_t at, uint8_t byte) {
    static uint8_t section[sizeof S];
    memcpy(section, S, sizeof S);
    section[at] = byte;
    return section;
}

/* Accepted sections: repeated blocks, and a start before the section that counts from its own field, the 29th byte. */
static void functions_of_other_forms(void) {
    static uint8_t repeated[sizeof S], relative[sizeof S];
    const suntimpani_verdict accepted = {0, 0};
    const suntimpani_function blocks = {0, 1, 0x1000, 0x20, 2, 1, 16}, before = {0, 1, 28 - 0xf000, 0x20, 2, 0, 0};
    memcpy(repeated, S, sizeof S);
    repeated[44] = 0x10;
    repeated[45] = 16;
    memcpy(relative, S, sizeof S);
    relative[3] = 4;
    memset(relative + 30, 0xff, 2);
    compare_verdicts("repeated blocks, a check", suntimpani_check(repeated, 78), accepted);
    compare_functions("repeated blocks", suntimpani_function_at(repeated, 78, 0), blocks);
    compare_verdicts("a relative start, a check", suntimpani_check(relative, 78), accepted);
    compare_functions("a relative start", suntimpani_function_at(relative, 78, 0), before);
    compare_functions("a plain block with a repeat size", suntimpani_function_at(changed(45, 16), 78, 0),
                      suntimpani_function_at(S, 78, 0));
}

/* Sections that a check refuses with 9 to 15: each entry is told as it stands. */
static void functions_of_refused_sections(void) {
    const suntimpani_verdict info = {9, 0}, repeat = {10, 0}, rows = {11, 0}, rising = {13, 0}, order = {14, 1};
    const suntimpani_verdict sum = {15, 0};
    const suntimpani_function first = {0, 1, 0x1000, 0x20, 2, 0, 0}, no_repeat = {0, 1, 0x1000, 0x20, 2, 1, 0};
    const suntimpani_function many_rows = {0, 1, 0x1000, 0x20, 0xff000002, 0, 0}, low = {0, 1, 0x101f, 0x10, 1, 0, 0};
    compare_verdicts("9, a check", suntimpani_check(changed(44, 0xcf), 78), info);
    compare_functions("9", suntimpani_function_at(changed(44, 0xcf), 78, 0), first);
    compare_verdicts("10, a check", suntimpani_check(changed(44, 0x10), 78), repeat);
    compare_functions("10", suntimpani_function_at(changed(44, 0x10), 78, 0), no_repeat);
    compare_verdicts("11, a check", suntimpani_check(changed(39, 0xff), 78), rows);
    compare_functions("11", suntimpani_function_at(changed(39, 0xff), 78, 0), first);
    compare_verdicts("13, a check", suntimpani_check(changed(43, 0xff), 78), rising);
    compare_functions("13", suntimpani_function_at(changed(43, 0xff), 78, 0), many_rows);
    compare_verdicts("14, a check", suntimpani_check(overlapping(1), 78), order);
    compare_functions("14", suntimpani_function_at(overlapping(1), 78, 1), low);
    compare_verdicts("15, a check", suntimpani_check(changed(12, 4), 78), sum);
    compare_functions("15", suntimpani_function_at(changed(12, 4), 78, 0), first);
    compare_functions("15, past the last", suntimpani_function_at(changed(12, 4), 78, 2), NO_FUNCTION);
}

/* The rows of both functions of S, and that there are no more, twice; and no row where there is no function. */
static void rows_of_s(void) {
    const suntimpani_rows first = {3, 0, 68, 2}, second = {3, 0, 75, 1}, none = {3, 0, 0, 0};
    const suntimpani_row entered = {1, 0, 1, 8, 1, -8, 0, 0, 0, {3, 0, 71, 1}};
    const suntimpani_row framed = {1, 4, 0, 16, 1, -8, 1, -16, 0, {3, 0, 75, 0}};
    const suntimpani_row only = {1, 0, 1, 8, 1, -8, 0, 0, 0, {3, 0, 78, 0}};
    const suntimpani_row past_framed = {0, 0, 0, 0, 0, 0, 0, 0, 0, {3, 0, 75, 0}};
    const suntimpani_row past_only = {0, 0, 0, 0, 0, 0, 0, 0, 0, {3, 0, 78, 0}};
    const suntimpani_row nothing = {0, 0, 0, 0, 0, 0, 0, 0, 0, {3, 0, 0, 0}};
    compare_places("the rows of function 0 of S", suntimpani_rows_of(S, 78, 0), first);
    compare_rows("row 0 of function 0", suntimpani_next_row(S, 78, first), entered);
    compare_rows("row 1 of function 0", suntimpani_next_row(S, 78, entered.rest), framed);
    compare_rows("no more in function 0", suntimpani_next_row(S, 78, framed.rest), past_framed);
    compare_rows("again no more in function 0", suntimpani_next_row(S, 78, past_framed.rest), past_framed);
    compare_places("the rows of function 1 of S", suntimpani_rows_of(S, 78, 1), second);
    compare_rows("row 0 of function 1", suntimpani_next_row(S, 78, second), only);
    compare_rows("no more in function 1", suntimpani_next_row(S, 78, only.rest), past_only);
    compare_rows("again no more in function 1", suntimpani_next_row(S, 78, past_only.rest), past_only);
    compare_places("the rows past the last of S", suntimpani_rows_of(S, 78, 2), none);
    compare_places("the rows of the highest index of S", suntimpani_rows_of(S, 78, UINT64_MAX), none);
    compare_places("the rows of function 0 in 77 bytes", suntimpani_rows_of(S, 77, 0), none);
    compare_rows("no row where there is no function", suntimpani_next_row(S, 78, none), nothing);
}

/* Places that no call gave: S's row of 4 bytes by each ABI, and numbers that name no row. */
static void rows_of_any_numbers(void) {
    const suntimpani_rows big = {1, 0, 71, 9}, little = {2, 0, 71, 9}, unknown = {UINT64_MAX, 0, 71, 9};
    const suntimpani_rows wide = {3, 2, 71, 9}, no_type = {3, 3, 71, 9}, high_type = {3, UINT64_MAX, 71, 9};
    const suntimpani_rows inside = {3, 0, 76, 9}, at_end = {3, 0, 78, 9}, far = {2, 1, UINT64_MAX, UINT64_MAX};
    const suntimpani_rows many = {3, 0, 68, UINT64_MAX};
    const suntimpani_row by_big = {1, 4, 0, 16, 1, -16, 0, 0, 0, {1, 0, 75, 8}};
    const suntimpani_row by_little = {1, 4, 0, 16, 1, -16, 0, 0, 0, {2, 0, 75, 8}};
    const suntimpani_row by_amd64 = {1, 4, 0, 16, 1, -8, 1, -16, 0, {3, 0, 75, 8}};
    const suntimpani_row of_many = {1, 0, 1, 8, 1, -8, 0, 0, 0, {3, 0, 71, UINT64_MAX - 1}};
    suntimpani_row none = {0, 0, 0, 0, 0, 0, 0, 0, 0, {3, 2, 71, 0}};
    compare_rows("by ABI 1", suntimpani_next_row(S, 78, big), by_big);
    compare_rows("by ABI 2", suntimpani_next_row(S, 78, little), by_little);
    compare_rows("by an ABI that there is not", suntimpani_next_row(S, 78, unknown), by_amd64);
    compare_rows("of 2^64 - 1 rows", suntimpani_next_row(S, 78, many), of_many);
    compare_rows("an info of 0", suntimpani_next_row(S, 78, wide), none);
    none.rest.type = 3;
    compare_rows("row type 3", suntimpani_next_row(S, 78, no_type), none);
    none.rest.type = UINT64_MAX;
    compare_rows("row type 2^64 - 1", suntimpani_next_row(S, 78, high_type), none);
    none.rest.type = 0;
    none.rest.at = 76;
    compare_rows("a row that ends past the section", suntimpani_next_row(S, 78, inside), none);
    none.rest.at = 78;
    compare_rows("at the section's end", suntimpani_next_row(S, 78, at_end), none);
    none.rest = far;
    none.rest.left = 0;
    compare_rows("at 2^64 - 1", suntimpani_next_row(S, 78, far), none);
}

/* Sections that a check refuses: rows are told as they stand, up to the first that is not whole. */
static void rows_of_refused_sections(void) {
    const suntimpani_verdict outside = {11, 0}, info = {12, 0};
    const suntimpani_rows far = {3, 0, UINT64_C(68) + 0xff000000, 2}, first = {3, 0, 68, 2};
    const suntimpani_row none = {0, 0, 0, 0, 0, 0, 0, 0, 0, {3, 0, UINT64_C(68) + 0xff000000, 0}};
    const suntimpani_row entered = {1, 0, 1, 8, 1, -8, 0, 0, 0, {3, 0, 71, 1}};
    const suntimpani_row ended = {0, 0, 0, 0, 0, 0, 0, 0, 0, {3, 0, 71, 0}};
    const suntimpani_row three = {1, 4, 0, 16, 1, -8, 1, -16, 0, {3, 0, 76, 0}};
    compare_verdicts("11, a check", suntimpani_check(changed(39, 0xff), 78), outside);
    compare_places("11, the rows", suntimpani_rows_of(changed(39, 0xff), 78, 0), far);
    compare_rows("11, a row", suntimpani_next_row(changed(39, 0xff), 78, far), none);
    compare_verdicts("12, a check", suntimpani_check(changed(72, 0), 78), info);
    compare_places("12, the rows", suntimpani_rows_of(changed(72, 0), 78, 0), first);
    compare_rows("12, a row before", suntimpani_next_row(changed(72, 0), 78, first), entered);
    compare_rows("12, no offsets", suntimpani_next_row(changed(72, 0), 78, entered.rest), ended);
    compare_rows("12, offset size 3", suntimpani_next_row(changed(72, 0x64), 78, entered.rest), ended);
    compare_rows("12, three offsets on AMD64", suntimpani_next_row(changed(72, 0x06), 78, entered.rest), three);
    compare_rows("12, more offsets than there are bytes", suntimpani_next_row(changed(72, 0x1e), 78, entered.rest),
                 ended);
}

/* "PC 0x401044, SP 0x7000, FP 0x7030; stack at 0x7000, 64 bytes, all zero but the word 0x401008 at 0x7000". */
static const suntimpani_registers START = {0x401044, 0x7000, 0x7030, 0x5555, 1};
static const suntimpani_process PROCESS = {ADDRESS, 0x7000, 0};
static const uint8_t STACK[64] = {0x08, 0x10, 0x40};

#define HELD UINT64_C(0xa5a5a5a5a5a5a5a5)

/* A trace over a buffer of 8 words, of which `lent` are lent, and what all 8 hold afterwards. */
static void compare_trace(const char *what, const uint8_t *section, size_t stack_length, uint64_t limit, size_t lent,
                          suntimpani_traced wanted, const uint64_t *words) {
    uint64_t buffer[8] = {HELD, HELD, HELD, HELD, HELD, HELD, HELD, HELD};
    size_t word;
    suntimpani_traced got = suntimpani_trace(section, 78, STACK, stack_length, PROCESS, START, limit, buffer, lent);
    compare_traced(what, got, wanted);
    for (word = 0; word < 8; word++) {
        compare(what, "a word of the buffer", buffer[word], words[word]);
    }
}

static void k10_to_k12(void) {
    const uint64_t two[8] = {0x7008, 0x401008, 0x7030, 0x7040, 0, 0, HELD, HELD};
    const uint64_t one[8] = {0x7008, 0x401008, 0x7030, HELD, HELD, HELD, HELD, HELD};
    const uint64_t none[8] = {HELD, HELD, HELD, HELD, HELD, HELD, HELD, HELD};
    const suntimpani_traced outermost = {2, 30, 0}, full = {1, 31, 0}, outside = {1, 28, 0};
    const suntimpani_traced unsound = {0, 14, 1}, limit = {0, 42, 0}, room = {0, 43, 0};
    compare_trace("K10", S, 64, 2, 6, outermost, two);
    compare_trace("K11", S, 64, 1, 6, full, one);
    compare_trace("K12", S, 63, 2, 6, outside, one);
    compare_trace("K10 in the section of K8", overlapping(1), 64, 2, 6, unsound, none);
    compare_trace("K10 with limit 257", S, 64, 257, 8, limit, none);
    compare_trace("K10 with 5 words", S, 64, 2, 5, room, none);
    compare_trace("K10 with limit 0 and 8 words", S, 64, 0, 8, room, none);
}

/* The second function of S has called itself so often, and a trace of that with a limit over so many words: how many
 * frames there are and how it ends, each of their words, and every word behind them as it was. */
static void compare_deep(const char *what, size_t calls, uint64_t limit, size_t lent, suntimpani_traced wanted) {
    static uint8_t stack[8 * 200];
    static uint64_t buffer[3 * 256];
    size_t place;
    suntimpani_traced got;
    for (place = 0; place < 8 * calls; place++) {
        stack[place] = (uint8_t)(UINT64_C(0x401044) >> 8 * (place % 8));
    }
    for (place = 0; place < 3 * 256; place++) {
        buffer[place] = HELD;
    }
    got = suntimpani_trace(S, 78, stack, 8 * calls, PROCESS, START, limit, buffer, lent);
    compare_traced(what, got, wanted);
    for (place = 0; place < 3 * 256; place++) {
        const uint64_t frame[3] = {0x7008 + 8 * (place / 3), 0x401044, 0x7030};
        compare(what, "a word of the buffer", buffer[place], place < 3 * wanted.frames ? frame[place % 3] : HELD);
    }
}

/* Limit 0 is the usual limit: 128 frames, 384 words. Who relied on 64 passes 64. */
static void limits(void) {
    const suntimpani_traced cut = {127, 28, 0}, last = {128, 28, 0}, full = {128, 31, 0}, room = {0, 43, 0};
    const suntimpani_traced older = {64, 31, 0}, whole = {200, 28, 0};
    compare("the usual limit", "frames", SUNTIMPANI_USUAL_LIMIT, 128);
    compare_deep("limit 0, 127 calls", 127, 0, 384, cut);
    compare_deep("limit 0, 128 calls", 128, 0, 384, full);
    compare_deep("limit 0, 129 calls", 129, 0, 384, full);
    compare_deep("limit 0, a word more", 129, 0, 385, full);
    compare_deep("limit 0, a word fewer", 129, 0, 383, room);
    compare_deep("limit 128", 129, 128, 384, full);
    compare_deep("limit 128, a word fewer", 129, 128, 383, room);
    compare_deep("limit 129", 128, 129, 387, last);
    compare_deep("limit 0 and 192 words", 129, 0, 192, room);
    compare_deep("limit 64 and 192 words", 129, 64, 192, older);
    compare_deep("limit 256", 200, 256, 768, whole);
    compare_deep("limit 0 and 768 words", 200, 0, 768, full);
}

static void steps(void) {
    const suntimpani_registers marked = {0x401044, 0x7000, 0x7030, 0x5555, 7};
    const suntimpani_process high = {ADDRESS, UINT64_MAX, 0};
    const suntimpani_step caller = {{0x401008, 0x7008, 0x7030, 0x5555, 0}, 0, 0};
    const suntimpani_step outermost = {{0, 0x7040, 0, 0x5555, 0}, 0, 0};
    const suntimpani_step unsound = {{0x401044, 0x7000, 0x7030, 0x5555, 7}, 14, 1};
    const suntimpani_step past_the_end = {{0x401044, 0x7000, 0x7030, 0x5555, 7}, 41, 0};
    compare_steps("the first step of K10", suntimpani_caller(S, 78, STACK, 64, PROCESS, marked), caller);
    compare_steps("the second", suntimpani_caller(S, 78, STACK, 64, PROCESS, caller.registers), outermost);
    compare_steps("a step in K8", suntimpani_caller(overlapping(1), 78, STACK, 64, PROCESS, marked), unsound);
    compare_steps("a stack past 2^64", suntimpani_caller(S, 78, STACK, 64, high, marked), past_the_end);
}

/* A step from SP and FP 0x7000 at a PC, with the mark or without, in a section that lies at an address. */
static void compare_call(const char *what, const uint8_t *section, uint64_t address, uint64_t pc, uint64_t first,
                         suntimpani_step wanted) {
    static const uint8_t stack[16] = {0x38, 0x70, 0, 0, 0, 0, 0, 0, 0x44, 0x10, 0x40, 0, 0, 0, 0, 0};
    const suntimpani_process process = {address, 0x7000, 0};
    suntimpani_registers registers = {0, 0x7000, 0x7000, 0, 0};
    registers.pc = pc;
    registers.first = first;
    if (wanted.number > 0) {
        wanted.registers = registers;
    }
    compare_steps(what, suntimpani_caller(section, 78, stack, 16, process, registers), wanted);
}

/* PC itself is looked up with the mark, PC - 1 without it. The rows of S lead to different callers: CFA is SP + 8, or
 * FP + 16 with FP's word below RA's. */
static void last_calls(void) {
    const suntimpani_step by_entry = {{0x7038, 0x7008, 0x7000, 0, 0}, 0, 0};
    const suntimpani_step by_frame = {{0x401044, 0x7010, 0x7038, 0, 0}, 0, 0};
    const suntimpani_step none = {{0, 0, 0, 0, 0}, 21, 0}, no_row = {{0, 0, 0, 0, 0}, 23, 0};
    const suntimpani_step flags = {{0, 0, 0, 0, 0}, 5, 0};
    const suntimpani_answer neighbour = {0, 1, 0, 1, 0, 0, 1, 8, 1, -8, 0, 0, 0};
    const uint64_t top = 0 - (uint64_t)0x1020;
    uint8_t adjacent[78], late[78], repeated[78], below[78];
    memcpy(adjacent, S, 78);
    memcpy(late, S, 78);
    memcpy(repeated, S, 78);
    memcpy(below, S, 78);
    adjacent[48] = 0x20;
    late[36] = 3;
    late[40] = 1;
    late[12] = 2;
    repeated[44] = repeated[45] = 0x10;
    below[29] = 0xf0;
    below[30] = below[31] = 0xff;
    compare_call("a last call", adjacent, ADDRESS, 0x401020, 0, by_frame);
    compare_call("a crash in its neighbour", adjacent, ADDRESS, 0x401020, 1, by_entry);
    compare_answers("its neighbour", suntimpani_lookup(adjacent, 78, ADDRESS, 0x401020), neighbour);
    compare_call("a last call without a neighbour", S, ADDRESS, 0x401020, 0, by_frame);
    compare_call("a crash behind a function", S, ADDRESS, 0x401020, 1, none);
    compare_call("a first byte without the mark", S, ADDRESS, 0x401040, 0, none);
    compare_call("a first byte", S, ADDRESS, 0x401040, 1, by_entry);
    compare_call("a first row without the mark", late, ADDRESS, 0x401004, 0, no_row);
    compare_call("a first row", late, ADDRESS, 0x401004, 1, by_frame);
    compare_call("a block without the mark", repeated, ADDRESS, 0x401010, 0, by_frame);
    compare_call("a block", repeated, ADDRESS, 0x401010, 1, by_entry);
    compare_call("PC 0", below, 0x1000, 0, 1, by_entry);
    compare_call("PC 0 without the mark", below, 0x1000, 0, 0, none);
    compare_call("PC 2^64 - 1", S, top, UINT64_MAX, 1, by_frame);
    compare_call("PC 0 does not wrap", S, top, 0, 0, none);
    compare_call("PC 0 after the section's checks", changed(3, 8), ADDRESS, 0, 0, flags);
}

/* AArch64, little-endian, one function of 16 bytes at 0x1000 with three rows: from 0 on SP + 0, from 4 on SP + 16, both
 * with RA in LR, and from 8 on FP + 32 with RA at CFA - 24 and FP at CFA - 32, signed. */
static const uint8_t ON_AARCH64[59] = {
    0xe2, 0xde, 0x02, 0x01, 0x02, 0x00, 0x00, 0x00, 0x01, 0x00, 0x00, 0x00, 0x03, 0x00, 0x00, 0x00,
    0x0b, 0x00, 0x00, 0x00, 0x00, 0x00, 0x00, 0x00, 0x14, 0x00, 0x00, 0x00,
    0x00, 0x10, 0x00, 0x00, 0x10, 0x00, 0x00, 0x00, 0x00, 0x00, 0x00, 0x00, 0x03, 0x00, 0x00, 0x00,
    0x00, 0x00, 0x00, 0x00,
    0x00, 0x03, 0x00, 0x04, 0x03, 0x10, 0x08, 0x86, 0x20, 0xe8, 0xe0,
};

/* "AArch64, first frame, SP base, offset 0: CFA = SP, RA = LR. The same row later: 26. With offset 16 later: 27." No
 * word of the stack is needed, so that it may be lent as NULL. */
static void examples_on_aarch64(void) {
    const suntimpani_answer signed_row = {0, 0, 0, 1, 2, 8, 0, 32, 1, -24, 1, -32, 1};
    const suntimpani_answer leaf_row = {0, 0, 0, 1, 1, 4, 1, 16, 0, 0, 0, 0, 0};
    const suntimpani_registers first = {0x401000, 0x7000, 0x7030, 0x401005, 1};
    const suntimpani_registers later = {0x401001, 0x7000, 0x7030, 0x401005, 0};
    const suntimpani_step caller = {{0x401005, 0x7000, 0x7030, 0x401005, 0}, 0, 0};
    const suntimpani_step same_cfa = {{0x401001, 0x7000, 0x7030, 0x401005, 0}, 26, 0};
    const suntimpani_step no_place = {{0x401005, 0x7000, 0x7030, 0x401005, 0}, 27, 0};
    compare_answers("a signed row", suntimpani_lookup(ON_AARCH64, 59, ADDRESS, 0x40100f), signed_row);
    compare_answers("a leaf's row", suntimpani_lookup(ON_AARCH64, 59, ADDRESS, 0x401004), leaf_row);
    compare_steps("first, offset 0", suntimpani_caller(ON_AARCH64, 59, NULL, 0, PROCESS, first), caller);
    compare_steps("later, offset 0", suntimpani_caller(ON_AARCH64, 59, NULL, 0, PROCESS, later), same_cfa);
    compare_steps("later, offset 16", suntimpani_caller(ON_AARCH64, 59, NULL, 0, PROCESS, caller.registers), no_place);
}

/* AArch64, little-endian, one function of 20 bytes at 0x1000 with five rows: from 0 on SP + 16 with RA in LR, from 4 on
 * SP + 32 with RA at CFA - 8, both signed; from 8 on as from 4 on, and from 12 on as from 0 on, not signed; from 16 on
 * FP + 32 with RA at CFA - 24 and FP at CFA - 32, signed. */
static const uint8_t SIGNED[67] = {
    0xe2, 0xde, 0x02, 0x01, 0x02, 0x00, 0x00, 0x00, 0x01, 0x00, 0x00, 0x00, 0x05, 0x00, 0x00, 0x00,
    0x13, 0x00, 0x00, 0x00, 0x00, 0x00, 0x00, 0x00, 0x14, 0x00, 0x00, 0x00,
    0x00, 0x10, 0x00, 0x00, 0x14, 0x00, 0x00, 0x00, 0x00, 0x00, 0x00, 0x00, 0x05, 0x00, 0x00, 0x00,
    0x00, 0x00, 0x00, 0x00,
    0x00, 0x83, 0x10, 0x04, 0x85, 0x20, 0xf8, 0x08, 0x05, 0x20, 0xf8, 0x0c, 0x03, 0x10, 0x10, 0x86,
    0x20, 0xe8, 0xe0,
};

/* Ten words from 0x7000 on, and a mask with the bits from 48 to 54, of which some words have a few. */
static const uint8_t SIGNED_STACK[80] = {
    0x00, 0x00, 0x00, 0x00, 0x00, 0x00, 0x00, 0x00, 0x00, 0x00, 0x00, 0x00, 0x00, 0x00, 0x00, 0x00,
    0x00, 0x00, 0x00, 0x00, 0x00, 0x00, 0x00, 0x00, 0x08, 0x10, 0x40, 0x00, 0x00, 0x00, 0x00, 0x00,
    0x50, 0x70, 0x00, 0x00, 0x00, 0x00, 0x44, 0x00, 0x0c, 0x10, 0x40, 0x00, 0x00, 0x00, 0x2a, 0x00,
    0x00, 0x00, 0x00, 0x00, 0x00, 0x00, 0x00, 0x00, 0x00, 0x00, 0x00, 0x00, 0x00, 0x00, 0x33, 0x00,
    0x00, 0x00, 0x00, 0x00, 0x00, 0x00, 0x00, 0x00, 0x08, 0x10, 0x40, 0x00, 0x00, 0x00, 0x11, 0x00,
};
#define MASK UINT64_C(0x007f000000000000)
#define SIGNED_LR UINT64_C(0x0055000000401008)
#define SIGNED_WORD UINT64_C(0x002a00000040100c)

/* At the first byte of SIGNED, where RA is in LR; and behind a call before byte 8, where RA is the word at 0x7028. */
static const suntimpani_registers IN_LR = {0x401000, 0x7000, 0x7030, SIGNED_LR, 1};
static const suntimpani_registers IN_WORD = {0x401008, 0x7010, 0x7030, SIGNED_LR, 0};

/* A step under a mask. */
static suntimpani_step step_by(uint64_t mask, suntimpani_registers registers) {
    const suntimpani_process process = {ADDRESS, 0x7000, mask};
    return suntimpani_caller(SIGNED, 67, SIGNED_STACK, 80, process, registers);
}

/* The mask's bits go from RA of a signed row and from nothing else: CFA, FP and LR keep theirs. */
static void compare_cleared(const char *what, uint64_t mask, suntimpani_registers registers, uint64_t cfa,
                            uint64_t ra) {
    suntimpani_step wanted = {{0, 0, 0x7030, SIGNED_LR, 0}, 0, 0};
    wanted.registers.pc = ra;
    wanted.registers.sp = cfa;
    compare_steps(what, step_by(mask, registers), wanted);
}

static void signed_steps(void) {
    const suntimpani_verdict accepted = {0, 0};
    const suntimpani_registers plain_lr = {0x40100c, 0x7000, 0x7030, SIGNED_LR, 1};
    const suntimpani_registers plain_word = {0x401008, 0x7010, 0x7030, SIGNED_LR, 1};
    compare_verdicts("signed rows, a check", suntimpani_check(SIGNED, 67), accepted);
    compare_cleared("a signed LR", MASK, IN_LR, 0x7010, 0x401008);
    compare_cleared("a signed LR, two bits", UINT64_C(0x0040000000000008), IN_LR, 0x7010, UINT64_C(0x0015000000401000));
    compare_cleared("a signed LR, a bit that it has not", UINT64_C(1) << 63, IN_LR, 0x7010, SIGNED_LR);
    compare_cleared("a signed LR, every bit", UINT64_MAX, IN_LR, 0x7010, 0);
    compare_cleared("a signed word", MASK, IN_WORD, 0x7030, 0x40100c);
    compare_cleared("a signed word, all but three bits", UINT64_MAX - 7, IN_WORD, 0x7030, 4);
    compare_cleared("a signed word, every bit", UINT64_MAX, IN_WORD, 0x7030, 0);
    compare_cleared("an LR that is not signed", UINT64_MAX, plain_lr, 0x7010, SIGNED_LR);
    compare_cleared("a word that is not signed", UINT64_MAX, plain_word, 0x7030, SIGNED_WORD);
    compare_cleared("an LR that is not signed, no mask", 0, plain_lr, 0x7010, SIGNED_LR);
    compare_cleared("a word that is not signed, no mask", 0, plain_word, 0x7030, SIGNED_WORD);
}

/* FP's word has bits of the mask too, and keeps them. */
static void saved_fp_beside_signed_ra(void) {
    const suntimpani_registers registers = {0x401010, 0x7000, 0x7020, SIGNED_LR, 1};
    const suntimpani_step caller = {{0x40100c, 0x7040, UINT64_C(0x0044000000007050), SIGNED_LR, 0}, 0, 0};
    compare_steps("a saved FP", step_by(MASK, registers), caller);
}

/* What a step is refused with under mask 0, and under another. */
static void compare_refused(const char *what, suntimpani_registers registers, uint64_t by_none, uint64_t by_mask) {
    suntimpani_step wanted = {{0, 0, 0, 0, 0}, 0, 0};
    wanted.registers = registers;
    wanted.number = by_none;
    compare_steps(what, step_by(0, registers), wanted);
    wanted.number = by_mask;
    compare_steps(what, step_by(MASK, registers), wanted);
}

/* 24 is given under mask 0 alone, behind 21 and before all that follows. */
static void signed_refusals(void) {
    const suntimpani_step in_lr = {{0x401000, 0x7000, 0x7030, SIGNED_LR, 1}, 24, 0};
    const suntimpani_step in_word = {{0x401008, 0x7010, 0x7030, SIGNED_LR, 0}, 24, 0};
    const suntimpani_registers no_function = {0x401014, 0x7000, 0x7030, SIGNED_LR, 1};
    const suntimpani_registers high = {0x401000, UINT64_MAX, 0x7030, SIGNED_LR, 1};
    const suntimpani_registers low = {0x401010, 0x7000, 0x6000, SIGNED_LR, 1};
    const suntimpani_registers no_mark = {0x401001, 0x7000, 0x7030, SIGNED_LR, 0};
    const suntimpani_registers no_word = {0x401004, 0x7031, 0x7030, SIGNED_LR, 1};
    compare_steps("a signed LR, no mask", step_by(0, IN_LR), in_lr);
    compare_steps("a signed word, no mask", step_by(0, IN_WORD), in_word);
    compare_refused("behind the function", no_function, 21, 21);
    compare_refused("signed, and CFA past 2^64", high, 24, 25);
    compare_refused("signed, and CFA below SP", low, 24, 26);
    compare_refused("signed in LR, without the mark", no_mark, 24, 27);
    compare_refused("signed, and its word outside", no_word, 24, 28);
}

/* A trace of at most 4 frames under a mask, and what all 12 words hold afterwards. */
static void compare_signed_trace(const char *what, uint64_t mask, suntimpani_registers registers,
                                 suntimpani_traced wanted, const uint64_t *words) {
    const suntimpani_process process = {ADDRESS, 0x7000, mask};
    uint64_t buffer[12], word;
    for (word = 0; word < 12; word++) {
        buffer[word] = HELD;
    }
    compare_traced(what, suntimpani_trace(SIGNED, 67, SIGNED_STACK, 80, process, registers, 4, buffer, 12), wanted);
    for (word = 0; word < 12; word++) {
        compare(what, "a word of the buffer", buffer[word], word < 3 * wanted.frames ? words[word] : HELD);
    }
}

/* From IN_LR: RA is in LR, signed; a word, signed; a word that is not, which keeps its bits and so lies nowhere. */
static void signed_traces(void) {
    const uint64_t three[9] = {0x7010, 0x401008, 0x7030, 0x7030, 0x40100c, 0x7030,
                               0x7050, UINT64_C(0x0011000000401008), 0x7030};
    const uint64_t zero[3] = {0x7010, 0, 0x7030}, part[3] = {0x7010, UINT64_C(0x0054000000401008), 0x7030};
    const suntimpani_traced nowhere = {3, 21, 0}, refused = {0, 24, 0}, outermost = {1, 30, 0}, lost = {1, 21, 0};
    compare_signed_trace("a signed trace", MASK, IN_LR, nowhere, three);
    compare_signed_trace("a signed trace, no mask", 0, IN_LR, refused, NULL);
    compare_signed_trace("a signed trace, every bit", UINT64_MAX, IN_LR, outermost, zero);
    compare_signed_trace("a signed trace, too few bits", UINT64_C(1) << 48, IN_LR, lost, part);
}

/* From byte 8: RA is a word that is not signed; then one that is, and is 0 but for its signature. */
static void signed_later(void) {
    const suntimpani_registers at_8 = {0x401008, 0x7000, 0x7030, SIGNED_LR, 1};
    const uint64_t two[6] = {0x7020, 0x401008, 0x7030, 0x7040, 0, 0x7030};
    const uint64_t part[6] = {0x7020, 0x401008, 0x7030, 0x7040, UINT64_C(0x0032000000000000), 0x7030};
    const suntimpani_traced outermost = {2, 30, 0}, refused = {1, 24, 0}, lost = {2, 21, 0};
    compare_signed_trace("signed later", MASK, at_8, outermost, two);
    compare_signed_trace("signed later, no mask", 0, at_8, refused, two);
    compare_signed_trace("signed later, too few bits", UINT64_C(1) << 48, at_8, lost, part);
}

/* The bits go before 1 is taken away: 0x40100d comes to 0x401008, and the row before byte 8 is signed. */
static void cleared_before_it_is_asked(void) {
    const suntimpani_registers odd = {0x401000, 0x7000, 0x7030, 0x40100d, 1};
    const uint64_t words[6] = {0x7010, 0x401008, 0x7030, 0x7030, UINT64_C(0x002a000000401008), 0x7030};
    const suntimpani_traced lost = {2, 21, 0};
    compare_signed_trace("the low bits", 5, odd, lost, words);
}

/* On AMD64 neither the mask nor bit 7 of a row's info makes a difference. */
static void masks_on_amd64(void) {
    const suntimpani_process masked = {ADDRESS, 0x7000, UINT64_MAX};
    const suntimpani_step caller = {{0x401008, 0x7008, 0x7030, 0x5555, 0}, 0, 0};
    const suntimpani_traced outermost = {2, 30, 0};
    const uint64_t words[6] = {0x7008, 0x401008, 0x7030, 0x7040, 0, 0};
    uint64_t buffer[6] = {HELD, HELD, HELD, HELD, HELD, HELD}, word;
    compare_steps("AMD64, bit 7", suntimpani_caller(changed(76, 0x83), 78, STACK, 64, PROCESS, START), caller);
    compare_steps("AMD64, bit 7 and every bit", suntimpani_caller(changed(76, 0x83), 78, STACK, 64, masked, START),
                  caller);
    compare_traced("K10 with every bit", suntimpani_trace(S, 78, STACK, 64, masked, START, 2, buffer, 6), outermost);
    for (word = 0; word < 6; word++) {
        compare("K10 with every bit", "a word of the buffer", buffer[word], words[word]);
    }
}

/* A program that sets the two addresses alone, as before there was a mask; -Wextra would have it name the third. */
#pragma GCC diagnostic push
#pragma GCC diagnostic ignored "-Wmissing-field-initializers"
static const suntimpani_process TWO_FIELDS = {ADDRESS, 0x7000};
#pragma GCC diagnostic pop

static void two_fields(void) {
    const suntimpani_step caller = {{0x401008, 0x7008, 0x7030, 0x5555, 0}, 0, 0};
    const suntimpani_step refused = {{0x401000, 0x7000, 0x7030, SIGNED_LR, 1}, 24, 0};
    compare("two fields", "the mask", TWO_FIELDS.mask, 0);
    compare_steps("two fields", suntimpani_caller(S, 78, STACK, 64, TWO_FIELDS, START), caller);
    compare_steps("two fields, signed", suntimpani_caller(SIGNED, 67, SIGNED_STACK, 80, TWO_FIELDS, IN_LR), refused);
}

/* What is asked of S and of its variants: both rows of function 0, the row of function 1, and no function. */
static const suntimpani_answer ENTERED = {0, 0, 0, 2, 0, 0, 1, 8, 1, -8, 0, 0, 0};
static const suntimpani_answer FRAMED = {0, 0, 0, 2, 1, 4, 0, 16, 1, -8, 1, -16, 0};
static const suntimpani_answer SECOND = {0, 1, 0, 1, 0, 0, 1, 8, 1, -8, 0, 0, 0};
static const suntimpani_answer NOWHERE = {21, 0, 0, 2, 0, 0, 0, 0, 0, 0, 0, 0, 0};

static void compare_asked(const char *what, const uint8_t *section, uint64_t pc, suntimpani_answer wanted) {
    compare_answers(what, suntimpani_ask(section, 78, ADDRESS, pc), wanted);
}

static void asks_of_s(void) {
    compare_asked("K4, asked", S, 0x401003, ENTERED);
    compare_asked("K5, asked, 0x401004", S, 0x401004, FRAMED);
    compare_asked("K5, asked, 0x40101f", S, 0x40101f, FRAMED);
    compare_asked("K6, asked, 0x400fff", S, 0x400fff, NOWHERE);
    compare_asked("K6, asked, 0x401020", S, 0x401020, NOWHERE);
    compare_asked("K6, asked, 0x40103f", S, 0x40103f, NOWHERE);
    compare_asked("K7, asked", S, 0x401040, SECOND);
}

/* A sorted section that is accepted, and 112 PCs from one on: each answer is that of a lookup. */
static void compare_asks(const char *what, const uint8_t *section, size_t length, uint64_t address, uint64_t pc) {
    const suntimpani_verdict accepted = {0, 0};
    uint64_t on;
    compare_verdicts(what, suntimpani_check(section, length), accepted);
    for (on = 0; on < 112; on++) {
        compare_answers(what, suntimpani_ask(section, length, address, pc + on),
                        suntimpani_lookup(section, length, address, pc + on));
    }
}

static void asks_are_lookups(void) {
    const suntimpani_answer no_row = {23, 0, 0, 2, 0, 0, 0, 0, 0, 0, 0, 0, 0};
    const suntimpani_answer no_function = {21, 0, 0, 0, 0, 0, 0, 0, 0, 0, 0, 0, 0};
    const suntimpani_answer signed_row = {0, 0, 0, 1, 2, 8, 0, 32, 1, -24, 1, -32, 1};
    const uint64_t top = 0 - (uint64_t)0x1020;
    uint8_t late[78], repeated[78], relative[78], empty[28] = {0xe2, 0xde, 0x02, 0x01, 0x03, 0x00, 0xf8};
    memcpy(late, S, 78);
    memcpy(repeated, S, 78);
    memcpy(relative, S, 78);
    late[36] = 3;
    late[40] = 1;
    late[12] = 2;
    repeated[44] = repeated[45] = 0x10;
    relative[3] = 5;
    compare_asks("S", S, 78, ADDRESS, 0x400ff0);
    compare_asks("S at the top of memory", S, 78, top, 0 - (uint64_t)0x30);
    compare_asks("a late first row", late, 78, ADDRESS, 0x400ff0);
    compare_asked("before a late first row", late, 0x401003, no_row);
    compare_asks("repeated blocks", repeated, 78, ADDRESS, 0x400ff0);
    compare_asked("the second of the blocks", repeated, 0x401013, ENTERED);
    compare_asks("relative starts", relative, 78, ADDRESS, 0x401010);
    compare_asks("no functions", empty, 28, ADDRESS, ADDRESS);
    compare_answers("no functions", suntimpani_ask(empty, 28, ADDRESS, ADDRESS), no_function);
    compare_asks("AArch64", ON_AARCH64, 59, ADDRESS, 0x400ff0);
    compare_answers("a signed row, asked", suntimpani_ask(ON_AARCH64, 59, ADDRESS, 0x40100f), signed_row);
    compare_asks("signed rows", SIGNED, 67, ADDRESS, 0x400ff0);
}

/* A byte of S, another in its place, and a number that then is given. */
typedef struct {
    size_t at;
    uint8_t byte;
    uint64_t number;
} change;

/* Function 0 breaks one of 9 to 13: that is 44 where it is landed on and covers the PC, whichever of its rows is
 * sought. Where it does not cover the PC, and to function 1, it makes no difference. */
static void asks_of_damaged_functions(void) {
    static const change damages[] = {{44, 0x40, 9},  {44, 0x80, 9},  {44, 0x03, 9},  {44, 0x10, 10}, {39, 0xff, 11},
                                     {36, 11, 11},   {36, 10, 11},   {69, 0x00, 12}, {72, 0x00, 12}, {72, 0x64, 12},
                                     {72, 0x06, 12}, {71, 0x00, 13}, {43, 0xff, 13}};
    const suntimpani_answer damaged = {44, 0, 0, 2, 0, 0, 0, 0, 0, 0, 0, 0, 0};
    suntimpani_verdict refused = {0, 0};
    size_t number;
    for (number = 0; number < sizeof damages / sizeof *damages; number++) {
        const uint8_t *section = changed(damages[number].at, damages[number].byte);
        refused.number = damages[number].number;
        compare_verdicts("damaged, a check", suntimpani_check(section, 78), refused);
        compare_asked("damaged, at its first byte", section, 0x401000, damaged);
        compare_asked("damaged, at its last byte", section, 0x40101f, damaged);
        compare_asked("damaged, before it", section, 0x400fff, NOWHERE);
        compare_asked("damaged, behind it", section, 0x401020, NOWHERE);
        compare_asked("damaged, in the other", section, 0x401040, SECOND);
    }
}

/* What is wrong elsewhere is not seen: an order that 14 refuses, a sum that 15 does, and function 1 from function 0. */
static void asks_of_one_function(void) {
    const suntimpani_verdict order = {14, 1}, sum = {15, 0}, outside = {11, 1}, info = {12, 1};
    const suntimpani_answer damaged = {44, 1, 0, 1, 0, 0, 0, 0, 0, 0, 0, 0, 0};
    const suntimpani_answer elsewhere = {21, 0, 0, 1, 0, 0, 0, 0, 0, 0, 0, 0, 0};
    compare_asked("K8, asked, in both", overlapping(1), 0x40101f, SECOND);
    compare_asked("K8, asked, in function 0", overlapping(1), 0x40101e, FRAMED);
    /* Function 0 lies behind function 1, from 0x1080 on, where it is not landed on. */
    compare_verdicts("out of order, a check", suntimpani_check(changed(28, 0x80), 78), order);
    compare_asked("out of order, in function 0", changed(28, 0x80), 0x401084, elsewhere);
    compare_asked("out of order, in function 1", changed(28, 0x80), 0x401044, SECOND);
    compare_asked("out of order, before both", changed(28, 0x80), 0x40103f, NOWHERE);
    compare_verdicts("15, a check", suntimpani_check(changed(12, 4), 78), sum);
    compare_asked("15, asked", changed(12, 4), 0x401003, ENTERED);
    compare_verdicts("11 in function 1, a check", suntimpani_check(changed(60, 2), 78), outside);
    compare_asked("11 in function 1, asked", changed(60, 2), 0x401044, damaged);
    compare_asked("11 in function 1, in function 0", changed(60, 2), 0x401004, FRAMED);
    compare_verdicts("12 in function 1, a check", suntimpani_check(changed(76, 0), 78), info);
    compare_asked("12 in function 1, asked", changed(76, 0), 0x401044, damaged);
    compare_asked("12 in function 1, in function 0", changed(76, 0), 0x401004, FRAMED);
}

/* An entry that is not compared, and rows that are not those of a function that is landed on and covers the PC, may
 * hold anything. */
static void bytes_that_are_not_read(void) {
    uint8_t first[78], second[78], rows[78];
    memcpy(first, S, 78);
    memcpy(second, S, 78);
    memcpy(rows, S, 78);
    memset(first + 28, 0xff, 20);
    memset(first + 68, 0xff, 7);
    memset(second + 75, 0xff, 3);
    memset(rows + 68, 0xff, 10);
    compare_asked("nothing of function 0", first, 0x401040, SECOND);
    compare_asked("no row of function 1", second, 0x401003, ENTERED);
    compare_asked("no row of function 1, the other row", second, 0x401004, FRAMED);
    compare_asked("no row, before both", rows, 0x400fff, NOWHERE);
    compare_asked("no row, behind function 0", rows, 0x401020, NOWHERE);
}

/* The header's rules are tried first, then the flag, then the function landed on. */
static void refused_asks(void) {
    static const change headers[] = {{0, 0, 3}, {2, 1, 4}, {3, 8, 5},  {3, 9, 5},  {4, 1, 6},
                                     {6, 0, 7}, {8, 3, 8}, {3, 0, 45}, {3, 2, 45}, {3, 4, 45}};
    suntimpani_answer refused = {0, 0, 0, 0, 0, 0, 0, 0, 0, 0, 0, 0, 0};
    uint8_t unsorted[78];
    size_t number;
    memcpy(unsorted, changed(72, 0), 78);
    unsorted[3] = 0;
    for (number = 0; number < sizeof headers / sizeof *headers; number++) {
        refused.number = headers[number].number;
        compare_asked("a header", changed(headers[number].at, headers[number].byte), 0x401003, refused);
    }
    refused.number = 45;
    compare_asked("K9, asked", overlapping(0), 0x40101f, refused);
    compare_asked("damaged and not sorted", unsorted, 0x401003, refused);
    refused.number = 8;
    compare_answers("77 bytes, not sorted", suntimpani_ask(unsorted, 77, ADDRESS, 0x401003), refused);
    compare_answers("77 bytes", suntimpani_ask(S, 77, ADDRESS, 0x401003), refused);
    refused.number = 1;
    compare_answers("27 bytes", suntimpani_ask(S, 27, ADDRESS, 0x401003), refused);
}

/* Nothing is read or written through a pointer whose length is 0. */
static void null_pointers(void) {
    const suntimpani_verdict is_short = {1, 0};
    const suntimpani_answer unsound = {1, 0, 0, 0, 0, 0, 0, 0, 0, 0, 0, 0, 0};
    const suntimpani_step refused = {{0x401044, 0x7000, 0x7030, 0x5555, 1}, 1, 0};
    const suntimpani_step outside = {{0x401044, 0x7000, 0x7030, 0x5555, 1}, 28, 0};
    const suntimpani_traced no_room = {0, 43, 0}, no_section = {0, 1, 0}, no_stack = {0, 28, 0};
    const suntimpani_function none = {1, 0, 0, 0, 0, 0, 0};
    const suntimpani_rows no_rows = {3, 0, 0, 0}, rows = {3, 0, 0, 1};
    const suntimpani_row no_row = {0, 0, 0, 0, 0, 0, 0, 0, 0, {3, 0, 0, 0}};
    uint64_t buffer[6];
    compare_verdicts("no section", suntimpani_check(NULL, 0), is_short);
    compare_functions("no section, a function", suntimpani_function_at(NULL, 0, 0), none);
    compare_places("no section, the rows", suntimpani_rows_of(NULL, 0, 0), no_rows);
    compare_rows("no section, a row", suntimpani_next_row(NULL, 0, rows), no_row);
    compare_answers("no section, a lookup", suntimpani_lookup(NULL, 0, ADDRESS, 0x401003), unsound);
    compare_answers("no section, asked", suntimpani_ask(NULL, 0, ADDRESS, 0x401003), unsound);
    compare_steps("no section, a step", suntimpani_caller(NULL, 0, NULL, 0, PROCESS, START), refused);
    compare_steps("no stack, a step", suntimpani_caller(S, 78, NULL, 0, PROCESS, START), outside);
    compare_traced("no buffer", suntimpani_trace(S, 78, STACK, 64, PROCESS, START, 2, NULL, 0), no_room);
    compare_traced("no section, a trace", suntimpani_trace(NULL, 0, NULL, 0, PROCESS, START, 2, buffer, 6), no_section);
    compare_traced("no stack, a trace", suntimpani_trace(S, 78, NULL, 0, PROCESS, START, 2, buffer, 6), no_stack);
}

int main(void) {
    version();
    layout_of_answers();
    layout_of_functions();
    layout_of_rows();
    layout_of_the_others();
    k1_to_k3();
    k4_to_k7();
    k8_and_k9();
    functions_of_s();
    functions_of_other_forms();
    functions_of_refused_sections();
    rows_of_s();
    rows_of_any_numbers();
    rows_of_refused_sections();
    k10_to_k12();
    limits();
    steps();
    last_calls();
    examples_on_aarch64();
    signed_steps();
    saved_fp_beside_signed_ra();
    signed_refusals();
    signed_traces();
    signed_later();
    cleared_before_it_is_asked();
    masks_on_amd64();
    two_fields();
    asks_of_s();
    asks_are_lookups();
    asks_of_damaged_functions();
    asks_of_one_function();
    bytes_that_are_not_read();
    refused_asks();
    null_pointers();
    return say_compared();
}
