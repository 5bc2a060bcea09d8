/* The calls on the way to a fault. Each notes its return address, and SP and FP right before it calls. */
#include <alloca.h>

#include "recorder.h"

static volatile int *volatile nowhere;
static volatile int depth;

/* The fault: in the body of a function that keeps no frame pointer and calls nothing, so that on AArch64 its return
 * address is in LR alone. Nothing comes back from it, but the compiler is not told so: it would not sign an address to
 * which nothing returns. The empty instruction keeps behind the fault what belongs to the return. */
APART void third(int value) {
    volatile int kept[40];
    NOTE_RETURN_IN_LEAF(IN_THIRD);
    kept[value] = value;
    *nowhere = kept[value];
    __asm__ volatile("");
}

/* In the place of `third`: asks for all the room that its stack has but less than the 128 bytes that a window begins
 * below SP, so that these reach below the stack. */
APART NEVER_RETURNS void brink(int value) {
    const char *here = (const char *)alloca(16);
    volatile char *room;
    NOTE_RETURN(IN_THIRD);
    room = (volatile char *)alloca((size_t)((uint64_t)(uintptr_t)here - lowest_of_stack()) - 96);
    room[value] = (char)value;
    *nowhere = room[value];
    __builtin_trap();
}

/* The compiler is told where nothing comes back, and leaves out what would come behind the call. */
static void (*volatile called_third)(int);

void let_last_call(void (*called)(int)) {
    called_third = called;
}

/* Its last instruction is the call, since nothing comes back from it: the return address is the first byte behind this
 * function. As GCC lays it out here, another one begins there; clang fills up to the next multiple of 16. */
static APART NEVER_RETURNS void last(int value) {
    void (*called)(int) = called_third;
    volatile int kept[20];
    NOTE_RETURN(IN_LAST);
    kept[value] = value + 1;
    value = kept[value];
    NOTE_CALL(IN_THIRD, value);
    called(value);
    __builtin_unreachable();
}

/* Read when it is called, so that the compiler does not know that nothing comes back from here either. */
static void (*volatile called_last)(int) = last;

/* The room by alloca makes the compiler count from a frame pointer. */
static APART int second(int value) {
    void (*called)(int) = called_last;
    volatile char *room = (volatile char *)alloca((size_t)value + 100);
    NOTE_RETURN(IN_SECOND);
    room[value] = (char)value;
    value++;
    NOTE_CALL(IN_LAST, value);
    called(value);
    return room[depth];
}

/* Room of a fixed size, counted from SP. */
APART int first(int value) {
    volatile int kept[40];
    NOTE_RETURN(IN_FIRST);
    kept[value] = value;
    value++;
    NOTE_CALL(IN_SECOND, value);
    value = second(value);
    return value + kept[depth];
}

/* The fault of the deep calls: `left` is 0, the number of its own frame in a trace. */
static APART NEVER_RETURNS int bottom(int left) {
    NOTE_RETURN(left);
    *nowhere = left;
    __builtin_trap();
}

/* Read when it is called, so that the compiler makes no loop of the calls. */
static int (*volatile called_deep[])(int) = {deep, bottom};

/* Calls itself while more than one call is to come: `left` is how many, and so the number of its own frame. It ends in
 * the call as `last` does, so that no frame of it is found by looking up RA itself. */
APART NEVER_RETURNS int deep(int left) {
    int (*called)(int) = called_deep[left == 1];
    volatile int kept[2];
    NOTE_RETURN(left);
    kept[0] = left;
    left = kept[0] - 1;
    NOTE_CALL(left, left);
    called(left);
    __builtin_unreachable();
}

/* What the module calls: it asks for a frame pointer as `second` does, and calls the module again. */
APART int between(int value) {
    volatile char *room = (volatile char *)alloca((size_t)value + 200);
    NOTE_RETURN(IN_BETWEEN);
    room[value] = (char)value;
    value++;
    NOTE_CALL(IN_MODULE, value);
    value = in_module(value);
    return value + room[depth];
}

/* No room of its own, and nothing kept. */
static APART int leaf(int value) {
    return value * 3 + depth;
}

/* A frame pointer, and with it rows that count from FP. */
static APART int by_pointer(int value) {
    volatile char *room = (volatile char *)alloca((size_t)value + 50);
    room[value] = (char)leaf(value);
    return room[value] + leaf(value + 1);
}

/* Has more to keep over its calls than there are registers for it, so that it saves all of them, FP too, and gets them
 * back before it returns: at its end the place of FP is far below SP. */
APART int saves_all(int value) {
    int one = leaf(value), two = leaf(one), three = leaf(two), four = leaf(three), five = leaf(four), six = leaf(five);
    int seven = by_pointer(value), eight = value > 9 ? 0 : saves_all(value + 1);
    return (one ^ two ^ three ^ four ^ five ^ six ^ seven ^ eight) | 1;
}
