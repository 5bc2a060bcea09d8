/* Built and run by find_way: the status is 0 where the assembler and the linker gave this program a section of
 * version 2 of SFrame. */
#include "recorder.h"

int main(void) {
    lent_bytes section = own_section();
    return section.length >= 28 && section.bytes[2] == 2 ? 0 : 1;
}
