/* Finds the `.sframe` section of a loaded module in memory. Not for a signal handler: called before the crash. */
#define _GNU_SOURCE
#include <link.h>
#include <string.h>

#include "recorder.h"

/* The type of the program header that GNU ld writes for the section; older copies of <elf.h> have no name for it. */
#define GNU_SFRAME_SEGMENT 0x6474e554u

static uint64_t number_at(const uint8_t *bytes) {
    uint32_t number;
    memcpy(&number, bytes, sizeof number);
    return number;
}

/* GNU ld 2.44 sizes the segment before it merges the sections of several files, so that the segment is longer than the
 * section. The section's own header says how long it is: header, auxiliary header, function table and rows. */
static size_t section_length(lent_bytes segment) {
    uint64_t said;
    if (segment.length < 28) {
        return segment.length;
    }
    said = 28 + segment.bytes[7] + 20 * number_at(segment.bytes + 8) + number_at(segment.bytes + 16);
    return said < segment.length ? (size_t)said : segment.length;
}

lent_bytes section_of(const struct dl_phdr_info *loaded) {
    lent_bytes section = {NULL, 0};
    ElfW(Half) number;
    for (number = 0; number < loaded->dlpi_phnum; number++) {
        const ElfW(Phdr) *segment = &loaded->dlpi_phdr[number];
        if (segment->p_type == GNU_SFRAME_SEGMENT) {
            section.bytes = (const uint8_t *)(loaded->dlpi_addr + segment->p_vaddr);
            section.length = segment->p_memsz;
        }
    }
    section.length = section_length(section);
    return section;
}

/* The program itself is the first that is shown; 1 ends the listing before its libraries. */
static int take_first(struct dl_phdr_info *loaded, size_t size, void *found) {
    (void)size;
    *(lent_bytes *)found = section_of(loaded);
    return 1;
}

lent_bytes own_section(void) {
    lent_bytes section = {NULL, 0};
    dl_iterate_phdr(take_first, &section);
    return section;
}
