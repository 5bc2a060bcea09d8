/* A sampling tool in small: counts how many sampled PCs lie in each function of an `.sframe` section. The file of the
 * section is mapped and checked once; each sample is then asked for without a check.
 *
 *     sampler FILE ADDRESS <SAMPLES
 *
 * FILE holds the bytes of the section, ADDRESS is where the first of them lay in the program that was sampled, and
 * SAMPLES has a PC on each line; numbers are hexadecimal. The status is 0 only where every sample was asked for. */
#define _POSIX_C_SOURCE 200809L
#include <fcntl.h>
#include <inttypes.h>
#include <stdint.h>
#include <stdio.h>
#include <stdlib.h>
#include <sys/mman.h>
#include <sys/stat.h>
#include <unistd.h>

#include "suntimpani.h"

/* The section as it is lent, and where it lay. */
typedef struct {
    const uint8_t *bytes;
    size_t length;
    uint64_t address;
} lent_section;

/* Maps a file; it stays so until the program ends. */
static int map(const char *path, lent_section *section) {
    struct stat about;
    void *mapped = MAP_FAILED;
    int file = open(path, O_RDONLY);
    if (file >= 0 && fstat(file, &about) == 0) {
        mapped = mmap(NULL, (size_t)about.st_size, PROT_READ, MAP_PRIVATE, file, 0);
    }
    if (mapped == MAP_FAILED) {
        perror(path);
        return 1;
    }
    section->bytes = (const uint8_t *)mapped;
    section->length = (size_t)about.st_size;
    return 0;
}

/* Once. In a section that is accepted, each answer is that of a lookup. One that is refused can be asked all the same
 * where its header is sound: an answer then speaks of one function, and another may cover the PC too. */
static int check(lent_section section) {
    suntimpani_verdict verdict = suntimpani_check(section.bytes, section.length);
    if (verdict.number == 0) {
        printf("the section is accepted\n");
    } else {
        printf("the section is refused by rule %" PRIu64 ", at function %" PRIu64 "\n", verdict.number, verdict.index);
    }
    return verdict.number >= 1 && verdict.number <= 8;
}

static uint64_t functions_of(lent_section section) {
    uint64_t functions = 0;
    while (suntimpani_function_at(section.bytes, section.length, functions).known) {
        functions++;
    }
    return functions;
}

/* One sample: the PC of an instruction, which is asked for as it is. For a return address ask for PC - 1. */
static int count(lent_section section, uint64_t pc, uint64_t *counts, uint64_t *elsewhere) {
    suntimpani_answer answer = suntimpani_ask(section.bytes, section.length, section.address, pc);
    switch (answer.number) {
    case 0:  /* the function, and the row by which its caller is found */
    case 23: /* the function, which has no row there */
    case 44: /* the function, whose rows are damaged */
        counts[answer.function]++;
        return 0;
    case 21:
        (*elsewhere)++;
        return 0;
    default: /* 45, since the header is sound */
        printf("the section is not sorted: a sample is looked up in it, not asked for\n");
        return 1;
    }
}

/* Where each function lies: who has the symbols finds its name by that address. */
static void print(lent_section section, const uint64_t *counts, uint64_t functions, uint64_t elsewhere) {
    uint64_t index;
    for (index = 0; index < functions; index++) {
        suntimpani_function function = suntimpani_function_at(section.bytes, section.length, index);
        if (counts[index] > 0) {
            printf("%8" PRIu64 "  function %" PRIu64 ", %" PRIu64 " bytes", counts[index], index, function.size);
            printf(" from 0x%" PRIx64 " on\n", section.address + (uint64_t)function.start);
        }
    }
    printf("%8" PRIu64 "  no function\n", elsewhere);
}

static int sample(lent_section section) {
    uint64_t functions = functions_of(section), elsewhere = 0, pc;
    uint64_t *counts = (uint64_t *)calloc((size_t)functions + 1, sizeof *counts);
    int failed = counts == NULL;
    while (!failed && scanf("%" SCNx64, &pc) == 1) {
        failed = count(section, pc, counts, &elsewhere);
    }
    if (!failed && !feof(stdin)) {
        fprintf(stderr, "sampler: a sample is not a hexadecimal number\n");
        failed = 1;
    }
    if (!failed) {
        print(section, counts, functions, elsewhere);
    }
    free(counts);
    return failed;
}

int main(int argc, char **argv) {
    lent_section section = {NULL, 0, 0};
    char *end = NULL;
    if (argc == 3) {
        section.address = strtoull(argv[2], &end, 16);
    }
    if (end == NULL || *end != '\0') {
        fprintf(stderr, "sampler: the arguments are FILE and ADDRESS, which is hexadecimal\n");
        return 1;
    }
    return map(argv[1], &section) || check(section) || sample(section);
}
