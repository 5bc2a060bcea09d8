/* A shared object with a section of its own, through which the calls go: into it, back into the program, and into it
 * again, where the fault is. */
#include "recorder.h"

static volatile int *volatile nowhere;
static volatile int depth;

/* Room of a fixed size, counted from SP. */
APART int in_module(int value) {
    volatile int kept[60];
    NOTE_RETURN(IN_MODULE);
    kept[value] = value;
    *nowhere = kept[value];
    return kept[depth];
}

APART int into_module(int value) {
    volatile int kept[12];
    NOTE_RETURN(INTO_MODULE);
    kept[value] = value;
    value++;
    NOTE_CALL(IN_BETWEEN, value);
    value = between(value);
    return value + kept[depth];
}
