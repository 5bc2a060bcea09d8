/* The modules of this program, itself and its shared objects: a table that is made before the crash, since
 * dl_iterate_phdr is not for a signal handler, and made anew after each dlopen. One section is lent at a time, and here
 * it is chosen for each step. */
#define _GNU_SOURCE
#include <link.h>

#include "recorder.h"

enum { MODULES = 64 };

/* Code, from an address up to another, and the section that speaks of it. */
typedef struct {
    uint64_t from, to;
    lent_bytes section;
} module;

static module modules[MODULES];
static size_t known;

/* 1 where there is no more room, which ends the listing. A module whose section is not sound is as one without. */
static int note_module(struct dl_phdr_info *loaded, size_t size, void *unused) {
    lent_bytes section = section_of(loaded);
    ElfW(Half) number;
    (void)size;
    (void)unused;
    if (suntimpani_check(section.bytes, section.length).number != 0) {
        return 0;
    }
    for (number = 0; number < loaded->dlpi_phnum; number++) {
        const ElfW(Phdr) *segment = &loaded->dlpi_phdr[number];
        if (segment->p_type != PT_LOAD || (segment->p_flags & PF_X) == 0) {
            continue;
        }
        if (known == MODULES) {
            return 1;
        }
        modules[known].from = loaded->dlpi_addr + segment->p_vaddr;
        modules[known].to = modules[known].from + segment->p_memsz;
        modules[known].section = section;
        known++;
    }
    return 0;
}

int find_modules(void) {
    known = 0;
    return dl_iterate_phdr(note_module, NULL) == 0;
}

static const module *module_at(uint64_t pc) {
    size_t number;
    for (number = 0; number < known; number++) {
        if (modules[number].from <= pc && pc < modules[number].to) {
            return &modules[number];
        }
    }
    return NULL;
}

/* Chosen by the PC that the step looks up: a return address may be the first byte behind its module's code. */
static suntimpani_step step_from(suntimpani_registers from) {
    const module *covers = module_at(from.first != 0 ? from.pc : from.pc - 1);
    suntimpani_process process = seen.process;
    suntimpani_step none;
    if (covers == NULL) {
        none.registers = from;
        none.number = OUTSIDE;
        none.index = 0;
        return none;
    }
    process.section_address = (uint64_t)(uintptr_t)covers->section.bytes;
    return suntimpani_caller(covers->section.bytes, covers->section.length, seen.stack.bytes, seen.stack.length,
                             process, from);
}

/* Ends as a trace does: with the number of the step that was refused, or 30 where RA is 0, or 31 at the limit. */
suntimpani_traced walk_on(suntimpani_registers from, uint64_t frames, uint64_t *words, uint64_t limit) {
    suntimpani_traced traced = {0, FULL, 0};
    for (traced.frames = frames; traced.frames < limit && traced.ending == FULL; traced.frames++) {
        suntimpani_step step = step_from(from);
        if (step.number != 0) {
            traced.ending = step.number;
            traced.index = step.index;
            return traced;
        }
        from = step.registers;
        words[3 * traced.frames] = from.sp;
        words[3 * traced.frames + 1] = from.pc;
        words[3 * traced.frames + 2] = from.fp;
        traced.ending = from.pc == 0 ? OUTERMOST : FULL;
    }
    return traced;
}
