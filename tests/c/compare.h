/* What the tests in C compare by: each difference is printed, and all are counted. */
#ifndef COMPARE_H
#define COMPARE_H

#include <inttypes.h>
#include <stdio.h>

#include "suntimpani.h"

static unsigned long comparisons, differences;

static void compare(const char *what, const char *field, uint64_t got, uint64_t wanted) {
    comparisons++;
    if (got != wanted) {
        differences++;
        printf("%s: %s is %" PRIx64 ", not %" PRIx64 "\n", what, field, got, wanted);
    }
}

#define FIELD(what, got, wanted, field) compare(what, #field, (uint64_t)(got).field, (uint64_t)(wanted).field)

static void compare_verdicts(const char *what, suntimpani_verdict got, suntimpani_verdict wanted) {
    FIELD(what, got, wanted, number);
    FIELD(what, got, wanted, index);
}

static void compare_answers(const char *what, suntimpani_answer got, suntimpani_answer wanted) {
    FIELD(what, got, wanted, number);
    FIELD(what, got, wanted, function);
    FIELD(what, got, wanted, second);
    FIELD(what, got, wanted, compared);
    FIELD(what, got, wanted, row);
    FIELD(what, got, wanted, start);
    FIELD(what, got, wanted, base);
    FIELD(what, got, wanted, cfa);
    FIELD(what, got, wanted, ra_place);
    FIELD(what, got, wanted, ra);
    FIELD(what, got, wanted, fp_place);
    FIELD(what, got, wanted, fp);
    FIELD(what, got, wanted, signed_ra);
}

/* The last line of a test, and its status. */
static int say_compared(void) {
    printf("%lu comparisons, %lu differences\n", comparisons, differences);
    return differences == 0 ? 0 : 1;
}

#endif
