/* Makes the library's calls for a test that runs in another process, on another machine: tests/src/library/far.rs.
 *
 * It is started with the file descriptors of three rooms, each followed by its size: for sections, stacks and words.
 * They are memory that both processes have. On standard input come requests, on standard output go answers, both of a
 * fixed number of words of 64 bits. What the test lays flush against an end of a room lies here flush against a page
 * that may not be touched: a call that reads or writes outside of what it was lent ends this program. */
#define _DEFAULT_SOURCE
#include "suntimpani.h"

#include <stdlib.h>
#include <string.h>
#include <sys/mman.h>
#include <unistd.h>

/* As in tests/src/guarded.rs: a multiple of every page size. */
#define PAGE 65536

/* As in tests/src/painted.rs: the stack that a depth is measured on, and no word that a call writes. */
#define STACK_WORDS 8192
#define PAINT UINT64_C(0x5ca1ab1e0dd5ba11)

enum { SECTION, STACK, WORDS, ROOMS };
enum { ANSWER, DEPTH, READ, WRITE };

/* In the room's place, where nothing is lent: the pointer is null. */
#define NO_ROOM UINT64_MAX

typedef struct {
    uint64_t room;
    uint64_t place;
    uint64_t length;
} part;

typedef struct {
    uint64_t kind;
    uint64_t call;
    part parts[ROOMS];
    uint64_t numbers[9];
} request;

/* How many fields the longest answers have. */
#define FIELDS 13
typedef char longest_of_rows[sizeof(suntimpani_row) == 8 * FIELDS ? 1 : -1];
typedef char longest_of_answers[sizeof(suntimpani_answer) == 8 * FIELDS ? 1 : -1];

/* The fields of a call's answer in their order, then 0; and how deep the call went, where that was asked for. */
typedef struct {
    uint64_t fields[FIELDS];
    uint64_t depth;
} answer;

static uint8_t *rooms[ROOMS];
static uint64_t *painted;

static void failed(const char *message) {
    ssize_t told = write(STDERR_FILENO, message, strlen(message));
    _exit(told < 0 ? 2 : 1);
}

/* A room between two stretches that may not be touched; without a file it is this program's own. */
static void *map_room(int file, size_t bytes) {
    int of_whom = file < 0 ? MAP_PRIVATE | MAP_ANONYMOUS : MAP_SHARED;
    uint8_t *base = mmap(NULL, bytes + 2 * PAGE, PROT_NONE, MAP_PRIVATE | MAP_ANONYMOUS | MAP_NORESERVE, -1, 0);
    if (base == MAP_FAILED ||
        mmap(base + PAGE, bytes, PROT_READ | PROT_WRITE, of_whom | MAP_FIXED | MAP_NORESERVE, file, 0) == MAP_FAILED) {
        failed("called: a room cannot be mapped\n");
    }
    return base + PAGE;
}

static void *lent(const part *part) {
    return part->room == NO_ROOM ? NULL : rooms[part->room] + part->place;
}

/* The eight calls: those of the archive, or those that do nothing. */
typedef struct {
    suntimpani_verdict (*check)(const uint8_t *, size_t);
    suntimpani_function (*function_at)(const uint8_t *, size_t, uint64_t);
    suntimpani_rows (*rows_of)(const uint8_t *, size_t, uint64_t);
    suntimpani_row (*next_row)(const uint8_t *, size_t, suntimpani_rows);
    suntimpani_answer (*lookup)(const uint8_t *, size_t, uint64_t, uint64_t);
    suntimpani_answer (*ask)(const uint8_t *, size_t, uint64_t, uint64_t);
    suntimpani_step (*caller)(const uint8_t *, size_t, const uint8_t *, size_t, suntimpani_process,
                              suntimpani_registers);
    suntimpani_traced (*trace)(const uint8_t *, size_t, const uint8_t *, size_t, suntimpani_process,
                               suntimpani_registers, uint64_t, uint64_t *, size_t);
} calls;

static const calls library = {
    suntimpani_check,  suntimpani_function_at, suntimpani_rows_of, suntimpani_next_row,
    suntimpani_lookup, suntimpani_ask,         suntimpani_caller,  suntimpani_trace,
};

static suntimpani_verdict empty_check(const uint8_t *section, size_t length) {
    (void)section, (void)length;
    return (suntimpani_verdict){ 0 };
}

static suntimpani_function empty_function_at(const uint8_t *section, size_t length, uint64_t index) {
    (void)section, (void)length, (void)index;
    return (suntimpani_function){ 0 };
}

static suntimpani_rows empty_rows_of(const uint8_t *section, size_t length, uint64_t index) {
    (void)section, (void)length, (void)index;
    return (suntimpani_rows){ 0 };
}

static suntimpani_row empty_next_row(const uint8_t *section, size_t length, suntimpani_rows rows) {
    (void)section, (void)length, (void)rows;
    return (suntimpani_row){ 0 };
}

static suntimpani_answer empty_answer(const uint8_t *section, size_t length, uint64_t address, uint64_t pc) {
    (void)section, (void)length, (void)address, (void)pc;
    return (suntimpani_answer){ 0 };
}

static suntimpani_step empty_caller(const uint8_t *section, size_t length, const uint8_t *stack, size_t stack_length,
                                    suntimpani_process process, suntimpani_registers registers) {
    (void)section, (void)length, (void)stack, (void)stack_length, (void)process, (void)registers;
    return (suntimpani_step){ 0 };
}

static suntimpani_traced empty_trace(const uint8_t *section, size_t length, const uint8_t *stack, size_t stack_length,
                                     suntimpani_process process, suntimpani_registers registers, uint64_t limit,
                                     uint64_t *buffer, size_t words) {
    (void)section, (void)length, (void)stack, (void)stack_length, (void)process, (void)registers;
    (void)limit, (void)buffer, (void)words;
    return (suntimpani_traced){ 0 };
}

static const calls empty = {
    empty_check,  empty_function_at, empty_rows_of, empty_next_row,
    empty_answer, empty_answer,      empty_caller,  empty_trace,
};

/* Each call is made by a function of its own, so that where its stack begins is not changed by the others. */
typedef void maker(const calls *, const request *, uint64_t *fields);

static void make_check(const calls *calls, const request *asked, uint64_t *fields) {
    const part *section = &asked->parts[SECTION];
    suntimpani_verdict said = calls->check(lent(section), section->length);
    memcpy(fields, &said, sizeof said);
}

static void make_function_at(const calls *calls, const request *asked, uint64_t *fields) {
    const part *section = &asked->parts[SECTION];
    suntimpani_function said = calls->function_at(lent(section), section->length, asked->numbers[0]);
    memcpy(fields, &said, sizeof said);
}

static void make_rows_of(const calls *calls, const request *asked, uint64_t *fields) {
    const part *section = &asked->parts[SECTION];
    suntimpani_rows said = calls->rows_of(lent(section), section->length, asked->numbers[0]);
    memcpy(fields, &said, sizeof said);
}

static void make_next_row(const calls *calls, const request *asked, uint64_t *fields) {
    const part *section = &asked->parts[SECTION];
    const uint64_t *n = asked->numbers;
    suntimpani_rows rows = { n[0], n[1], n[2], n[3] };
    suntimpani_row said = calls->next_row(lent(section), section->length, rows);
    memcpy(fields, &said, sizeof said);
}

static void make_lookup(const calls *calls, const request *asked, uint64_t *fields) {
    const part *section = &asked->parts[SECTION];
    const uint64_t *n = asked->numbers;
    suntimpani_answer said = calls->lookup(lent(section), section->length, n[0], n[1]);
    memcpy(fields, &said, sizeof said);
}

static void make_ask(const calls *calls, const request *asked, uint64_t *fields) {
    const part *section = &asked->parts[SECTION];
    const uint64_t *n = asked->numbers;
    suntimpani_answer said = calls->ask(lent(section), section->length, n[0], n[1]);
    memcpy(fields, &said, sizeof said);
}

static void make_caller(const calls *calls, const request *asked, uint64_t *fields) {
    const part *section = &asked->parts[SECTION], *stack = &asked->parts[STACK];
    const uint64_t *n = asked->numbers;
    suntimpani_process process = { n[0], n[1], n[2] };
    suntimpani_registers registers = { n[3], n[4], n[5], n[6], n[7] };
    suntimpani_step said =
        calls->caller(lent(section), section->length, lent(stack), stack->length, process, registers);
    memcpy(fields, &said, sizeof said);
}

static void make_trace(const calls *calls, const request *asked, uint64_t *fields) {
    const part *section = &asked->parts[SECTION], *stack = &asked->parts[STACK], *words = &asked->parts[WORDS];
    const uint64_t *n = asked->numbers;
    suntimpani_process process = { n[0], n[1], n[2] };
    suntimpani_registers registers = { n[3], n[4], n[5], n[6], n[7] };
    suntimpani_traced said = calls->trace(lent(section), section->length, lent(stack), stack->length, process,
                                          registers, n[8], lent(words), words->length);
    memcpy(fields, &said, sizeof said);
}

/* In the order of `Call` in tests/src/comparison/counts.rs. */
static maker *const makers[] = {
    make_check, make_function_at, make_rows_of, make_next_row, make_lookup, make_ask, make_caller, make_trace,
};

typedef struct {
    const calls *calls;
    const request *asked;
    uint64_t *fields;
} run;

static void enter(const run *run) {
    makers[run->asked->call](run->calls, run->asked, run->fields);
}

/* The stack pointer is changed for one call alone, which keeps x20, where the old one is. */
static void enter_on(uint64_t *top, const run *run) {
    register uint64_t x0 __asm__("x0") = (uintptr_t)run;
    __asm__ volatile("mov x20, sp\n\t"
                     "mov sp, %[top]\n\t"
                     "blr %[enter]\n\t"
                     "mov sp, x20"
                     : "+r"(x0)
                     : [top] "r"(top), [enter] "r"(enter)
                     : "x1", "x2", "x3", "x4", "x5", "x6", "x7", "x8", "x9", "x10", "x11", "x12", "x13", "x14", "x15",
                       "x16", "x17", "x18", "x20", "x30", "v0", "v1", "v2", "v3", "v4", "v5", "v6", "v7", "v8", "v9",
                       "v10", "v11", "v12", "v13", "v14", "v15", "v16", "v17", "v18", "v19", "v20", "v21", "v22", "v23",
                       "v24", "v25", "v26", "v27", "v28", "v29", "v30", "v31", "cc", "memory");
}

/* The bytes between the top of the painted stack and the lowest word that a run wrote, which is painted anew. */
static uint64_t depth_of(const calls *calls, const request *asked, uint64_t *fields) {
    size_t untouched = 0;
    run run = { calls, asked, fields };
    enter_on(painted + STACK_WORDS, &run);
    while (untouched < STACK_WORDS && painted[untouched] == PAINT) {
        untouched++;
    }
    for (size_t word = untouched; word < STACK_WORDS; word++) {
        painted[word] = PAINT;
    }
    return 8 * (STACK_WORDS - untouched);
}

/* Beside an empty call of the same form: what that one writes, the form itself does. */
static uint64_t depth_beside_empty(const request *asked, uint64_t *fields) {
    uint64_t ignored[FIELDS];
    uint64_t by_empty = depth_of(&empty, asked, ignored);
    uint64_t by_library = depth_of(&library, asked, fields);
    return by_library < by_empty ? 0 : by_library - by_empty;
}

/* One byte of a part, which may lie outside of its room. */
static volatile uint8_t *touched(const part *part) {
    return (volatile uint8_t *)((uintptr_t)rooms[part->room] + part->place);
}

static answer answer_to(const request *asked) {
    answer said = { { 0 }, 0 };
    switch (asked->kind) {
    case ANSWER:
        makers[asked->call](&library, asked, said.fields);
        break;
    case DEPTH:
        said.depth = depth_beside_empty(asked, said.fields);
        break;
    case READ:
        said.fields[0] = *touched(&asked->parts[0]);
        break;
    case WRITE:
        *touched(&asked->parts[0]) = (uint8_t)asked->numbers[0];
        break;
    default:
        failed("called: an unknown kind of request\n");
    }
    return said;
}

/* Whether there is another request: standard input may also end before one. */
static int next_request(request *asked) {
    size_t have = 0;
    while (have < sizeof *asked) {
        ssize_t got = read(STDIN_FILENO, (uint8_t *)asked + have, sizeof *asked - have);
        if (got == 0 && have == 0) {
            return 0;
        }
        if (got <= 0) {
            failed("called: a request cannot be read\n");
        }
        have += (size_t)got;
    }
    return 1;
}

static void send(const answer *said) {
    size_t sent = 0;
    while (sent < sizeof *said) {
        ssize_t put = write(STDOUT_FILENO, (const uint8_t *)said + sent, sizeof *said - sent);
        if (put <= 0) {
            failed("called: an answer cannot be written\n");
        }
        sent += (size_t)put;
    }
}

int main(int count, char **arguments) {
    request asked;
    if (count != 1 + 2 * ROOMS) {
        failed("called: it is told three rooms, each by the number of its file and its size\n");
    }
    for (int room = 0; room < ROOMS; room++) {
        rooms[room] = map_room(atoi(arguments[1 + 2 * room]), strtoull(arguments[2 + 2 * room], NULL, 10));
    }
    painted = map_room(-1, 8 * STACK_WORDS);
    for (size_t word = 0; word < STACK_WORDS; word++) {
        painted[word] = PAINT;
    }
    while (next_request(&asked)) {
        answer said = answer_to(&asked);
        send(&said);
    }
    return 0;
}
