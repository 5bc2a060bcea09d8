/* That suntimpani_ask reads nothing but what suntimpani.h says: it is asked about sections in which no page can be read
 * but those of the header, of the entries that the halving compares, and of the rows of the function landed on, up to
 * their first fault. A read of any other page ends this program. That they cannot be read is seen by a lookup, which
 * needs them.
 * Prints 'N comparisons, 0 differences', or each difference and ends with status 1. Linux. */
#define _DEFAULT_SOURCE
#include <signal.h>
#include <stdlib.h>
#include <string.h>
#include <sys/mman.h>
#include <sys/wait.h>
#include <unistd.h>

#include "compare.h"

#define ADDRESS 0x400000u

/* The longest section that is read, and how many functions fit into it; they share two rows, in its last 8 bytes. */
#define LENGTH ((size_t)16777216)
#define FUNCTIONS 838859u

/* The function with index i has 16 bytes from 32 i on, so that none covers the 16 behind them. */
#define APART 32u
#define SIZE 16u

/* There is room for one byte more than the longest section has. */
static uint8_t *section;

static void failed(const char *what) {
    perror(what);
    exit(2);
}

static void put(uint8_t *at, uint64_t number) {
    at[0] = (uint8_t)number;
    at[1] = (uint8_t)(number >> 8);
    at[2] = (uint8_t)(number >> 16);
    at[3] = (uint8_t)(number >> 24);
}

/* The header of a sorted section of AMD64. */
static void put_header(uint64_t functions, uint64_t rows, uint64_t row_bytes) {
    static const uint8_t fixed[8] = {0xe2, 0xde, 0x02, 0x01, 0x03, 0x00, 0xf8, 0x00};
    memcpy(section, fixed, 8);
    put(section + 8, functions);
    put(section + 12, rows);
    put(section + 16, row_bytes);
    put(section + 20, 0);
    put(section + 24, 20 * functions);
}

static void put_entry(uint64_t index, uint64_t start, uint64_t size, uint64_t rows, uint8_t info) {
    uint8_t *entry = section + 28 + 20 * index;
    put(entry, start);
    put(entry + 4, size);
    put(entry + 8, 0);
    put(entry + 12, rows);
    put(entry + 16, info);
}

static size_t page_size(void) {
    return (size_t)sysconf(_SC_PAGESIZE);
}

static void set_readable(size_t at, size_t length, int how) {
    size_t first = at / page_size() * page_size();
    if (mprotect(section + first, at + length - first, how) != 0) {
        failed("mprotect");
    }
}

/* Of bytes of the section, that their pages can be read. */
static void lend(size_t at, size_t length) {
    set_readable(at, length, PROT_READ);
}

static void lend_nothing(void) {
    set_readable(0, LENGTH + 1, PROT_NONE);
}

static void lend_all(void) {
    set_readable(0, LENGTH + 1, PROT_READ | PROT_WRITE);
}

/* Lends the entries that the halving compares where PC lies d bytes behind the section's first byte, and nothing else
 * but the header. Says how many they are. */
static uint64_t lend_compared(int64_t d) {
    uint64_t low = 0, high = FUNCTIONS, compared = 0;
    lend_nothing();
    lend(0, 28);
    while (low < high) {
        uint64_t middle = (low + high) / 2;
        lend(28 + 20 * middle, 20);
        compared++;
        if ((int64_t)(APART * middle) <= d) {
            low = middle + 1;
        } else {
            high = middle;
        }
    }
    return compared;
}

static suntimpani_answer ask_at(int64_t d) {
    return suntimpani_ask(section, LENGTH, ADDRESS, ADDRESS + (uint64_t)d);
}

/* At an offset of a function: one of its two rows, or behind it no function, and then without its rows. */
static void compare_function(uint64_t function, uint64_t offset) {
    int64_t d = (int64_t)(APART * function + offset);
    suntimpani_answer wanted = {21, 0, 0, 0, 0, 0, 0, 0, 0, 0, 0, 0, 0};
    wanted.compared = lend_compared(d);
    if (offset < SIZE) {
        const suntimpani_answer entered = {0, 0, 0, 0, 0, 0, 1, 8, 1, -8, 0, 0, 0};
        const suntimpani_answer pushed = {0, 0, 0, 0, 1, 4, 1, 16, 1, -8, 0, 0, 0};
        uint64_t compared = wanted.compared;
        lend(LENGTH - 8, 8);
        wanted = offset < 4 ? entered : pushed;
        wanted.function = function;
        wanted.compared = compared;
    }
    compare_answers("of many functions", ask_at(d), wanted);
}

static void compare_offsets(uint64_t function) {
    static const uint64_t offsets[] = {0, 3, 4, SIZE - 1, SIZE, APART - 1};
    size_t number;
    for (number = 0; number < sizeof offsets / sizeof *offsets; number++) {
        compare_function(function, offsets[number]);
    }
}

static void put_many_functions(void) {
    static const uint8_t rows[8] = {0x00, 0x03, 0x08, 0x04, 0x03, 0x10, 0x00, 0x00};
    uint64_t function;
    put_header(FUNCTIONS, 2 * FUNCTIONS, 8);
    for (function = 0; function < FUNCTIONS; function++) {
        put_entry(function, APART * function, SIZE, 2, 0);
    }
    memcpy(section + LENGTH - 8, rows, 8);
}

/* The longest section: its first and its last function, those whose entries lie on both sides of where a page begins,
 * and before them all. */
static void many_functions(void) {
    const suntimpani_verdict accepted = {0, 0};
    suntimpani_answer before = {21, 0, 0, 0, 0, 0, 0, 0, 0, 0, 0, 0, 0};
    size_t page = page_size(), begin;
    put_many_functions();
    compare_verdicts("many functions", suntimpani_check(section, LENGTH), accepted);
    compare_offsets(0);
    compare_offsets(FUNCTIONS - 1);
    for (begin = page; begin < LENGTH - page; begin += 37 * page) {
        uint64_t there = (begin - 28) / 20, function;
        for (function = there - 2; function <= there + 2; function++) {
            compare_offsets(function);
        }
    }
    before.compared = lend_compared(-1);
    compare_answers("before them all", ask_at(-1), before);
}

#define FAULTED 7

static void faulted(int signal) {
    (void)signal;
    _exit(FAULTED);
}

/* In a process of its own a lookup comes to a page that cannot be read, where what may be asked is answered. */
static void lookup_needs_more(void) {
    int status = 0;
    pid_t process;
    lend_compared(0);
    lend(LENGTH - 8, 8);
    process = fork();
    if (process == 0) {
        signal(SIGSEGV, faulted);
        suntimpani_lookup(section, LENGTH, ADDRESS, ADDRESS);
        _exit(0);
    }
    if (process < 0 || waitpid(process, &status, 0) != process) {
        failed("a process");
    }
    compare("a lookup", "its status", WIFEXITED(status) ? (uint64_t)WEXITSTATUS(status) : UINT64_MAX, FAULTED);
}

/* One function of 60,000 bytes with 30,000 rows of 6 bytes, in which the start has 4. */
#define ROWS ((uint64_t)30000)
#define LONG_LENGTH (48 + 6 * (size_t)ROWS)

static suntimpani_answer ask_long(uint64_t d) {
    return suntimpani_ask(section, LONG_LENGTH, ADDRESS, ADDRESS + d);
}

static void put_long_function(void) {
    uint64_t row;
    put_header(1, ROWS, 6 * ROWS);
    put_entry(0, 0, 2 * ROWS, ROWS, 2);
    for (row = 0; row < ROWS; row++) {
        put(section + 48 + 6 * row, 2 * row);
        section[48 + 6 * row + 4] = 0x03;
        section[48 + 6 * row + 5] = 8;
    }
}

/* The info of a row is 0: what stands behind that byte is not read, whichever row is sought. */
static void compare_broken(uint64_t row) {
    const suntimpani_answer damaged = {44, 0, 0, 1, 0, 0, 0, 0, 0, 0, 0, 0, 0};
    size_t info = 48 + 6 * (size_t)row + 4;
    section[info] = 0;
    lend_nothing();
    lend(0, info + 1);
    compare_answers("a broken row, the first is sought", ask_long(0), damaged);
    compare_answers("a broken row, the last is sought", ask_long(2 * ROWS - 1), damaged);
    lend_all();
    section[info] = 0x03;
}

static void one_long_function(void) {
    const suntimpani_answer last = {0, 0, 0, 1, ROWS - 1, 2 * ROWS - 2, 1, 8, 1, -8, 0, 0, 0};
    const suntimpani_answer behind = {21, 0, 0, 1, 0, 0, 0, 0, 0, 0, 0, 0, 0};
    uint64_t row;
    lend_all();
    put_long_function();
    compare_answers("the last row", ask_long(2 * ROWS - 1), last);
    for (row = 0; row < ROWS; row += 677) {
        compare_broken(row);
    }
    compare_broken(ROWS - 1);
    lend_nothing();
    lend(0, 48);
    compare_answers("behind it", ask_long(2 * ROWS), behind);
}

/* Nothing is read where the length is refused, and no entry where the header is or the flag is not set. */
static void refused_early(void) {
    suntimpani_answer refused = {0, 0, 0, 0, 0, 0, 0, 0, 0, 0, 0, 0, 0};
    lend_nothing();
    refused.number = 1;
    compare_answers("27 bytes", suntimpani_ask(section, 27, ADDRESS, ADDRESS), refused);
    refused.number = 2;
    compare_answers("a byte too many", suntimpani_ask(section, LENGTH + 1, ADDRESS, ADDRESS), refused);
    lend_all();
    put_header(FUNCTIONS, 2 * FUNCTIONS, 7);
    lend_nothing();
    lend(0, 28);
    refused.number = 8;
    compare_answers("a header", suntimpani_ask(section, LENGTH, ADDRESS, ADDRESS), refused);
    lend_all();
    put_header(FUNCTIONS, 2 * FUNCTIONS, 8);
    section[3] = 0;
    lend_nothing();
    lend(0, 28);
    refused.number = 45;
    compare_answers("not sorted", suntimpani_ask(section, LENGTH, ADDRESS, ADDRESS), refused);
}

int main(void) {
    void *room = mmap(NULL, LENGTH + 1, PROT_READ | PROT_WRITE, MAP_PRIVATE | MAP_ANONYMOUS, -1, 0);
    if (room == MAP_FAILED) {
        failed("mmap");
    }
    section = (uint8_t *)room;
    many_functions();
    lookup_needs_more();
    one_long_function();
    refused_early();
    return say_compared();
}
