/* The header's eight functions for AArch64, before those of the proved module, which targets/aarch64/archive compiles
 * with `proved_` before their names. This file is tried, and not proved.
 *
 * The module was made for x86-64: a struct by value is handed to it as a pointer to one, a result of more than two
 * words is written where its first pointer says, and two words come back as a pair. The functions here have the
 * header's forms, which the compiler holds them to, as AArch64 has them. Their struct parameters are copies, as by
 * value means, whatever the module does with them. Above each stands the form in the module, to which
 * targets/aarch64/translate holds it. */
#include "suntimpani.h"

_Static_assert(sizeof(suntimpani_process) == 24, "byval 24");
_Static_assert(sizeof(suntimpani_rows) == 32, "byval 32");
_Static_assert(sizeof(suntimpani_registers) == 40, "byval 40");

/* Of the module: { i64, i64 } suntimpani_check(ptr, i64) */
suntimpani_verdict proved_suntimpani_check(const uint8_t *section, size_t length);

suntimpani_verdict suntimpani_check(const uint8_t *section, size_t length) {
    return proved_suntimpani_check(section, length);
}

/* Of the module: ptr suntimpani_function_at(ptr, ptr, i64, i64) */
void *proved_suntimpani_function_at(suntimpani_function *function, const uint8_t *section, size_t length,
                                    uint64_t index);

suntimpani_function suntimpani_function_at(const uint8_t *section, size_t length, uint64_t index) {
    suntimpani_function function;
    proved_suntimpani_function_at(&function, section, length, index);
    return function;
}

/* Of the module: ptr suntimpani_rows_of(ptr, ptr, i64, i64) */
void *proved_suntimpani_rows_of(suntimpani_rows *rows, const uint8_t *section, size_t length, uint64_t index);

suntimpani_rows suntimpani_rows_of(const uint8_t *section, size_t length, uint64_t index) {
    suntimpani_rows rows;
    proved_suntimpani_rows_of(&rows, section, length, index);
    return rows;
}

/* Of the module: ptr suntimpani_next_row(ptr, ptr, i64, byval 32) */
void *proved_suntimpani_next_row(suntimpani_row *row, const uint8_t *section, size_t length, suntimpani_rows *rows);

suntimpani_row suntimpani_next_row(const uint8_t *section, size_t length, suntimpani_rows rows) {
    suntimpani_row row;
    proved_suntimpani_next_row(&row, section, length, &rows);
    return row;
}

/* Of the module: ptr suntimpani_lookup(ptr, ptr, i64, i64, i64) */
void *proved_suntimpani_lookup(suntimpani_answer *answer, const uint8_t *section, size_t length, uint64_t address,
                               uint64_t pc);

suntimpani_answer suntimpani_lookup(const uint8_t *section, size_t length, uint64_t address, uint64_t pc) {
    suntimpani_answer answer;
    proved_suntimpani_lookup(&answer, section, length, address, pc);
    return answer;
}

/* Of the module: ptr suntimpani_ask(ptr, ptr, i64, i64, i64) */
void *proved_suntimpani_ask(suntimpani_answer *answer, const uint8_t *section, size_t length, uint64_t address,
                            uint64_t pc);

suntimpani_answer suntimpani_ask(const uint8_t *section, size_t length, uint64_t address, uint64_t pc) {
    suntimpani_answer answer;
    proved_suntimpani_ask(&answer, section, length, address, pc);
    return answer;
}

/* Of the module: ptr suntimpani_caller(ptr, ptr, i64, ptr, i64, byval 24, byval 40) */
void *proved_suntimpani_caller(suntimpani_step *step, const uint8_t *section, size_t length, const uint8_t *stack,
                               size_t stack_length, suntimpani_process *process, suntimpani_registers *registers);

suntimpani_step suntimpani_caller(const uint8_t *section, size_t length, const uint8_t *stack, size_t stack_length,
                                  suntimpani_process process, suntimpani_registers registers) {
    suntimpani_step step;
    proved_suntimpani_caller(&step, section, length, stack, stack_length, &process, &registers);
    return step;
}

/* Of the module: ptr suntimpani_trace(ptr, ptr, i64, ptr, i64, byval 24, byval 40, i64, ptr, i64) */
void *proved_suntimpani_trace(suntimpani_traced *traced, const uint8_t *section, size_t length, const uint8_t *stack,
                              size_t stack_length, suntimpani_process *process, suntimpani_registers *registers,
                              uint64_t limit, uint64_t *buffer, size_t words);

suntimpani_traced suntimpani_trace(const uint8_t *section, size_t length, const uint8_t *stack, size_t stack_length,
                                   suntimpani_process process, suntimpani_registers registers, uint64_t limit,
                                   uint64_t *buffer, size_t words) {
    suntimpani_traced traced;
    proved_suntimpani_trace(&traced, section, length, stack, stack_length, &process, &registers, limit, buffer, words);
    return traced;
}
