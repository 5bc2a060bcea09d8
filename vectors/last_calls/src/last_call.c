/* Functions whose last instruction is a call that never returns, each with a neighbour at the very next byte: the return
 * address of that call is the neighbour's first byte. */
extern void abort(void) __attribute__((noreturn));
extern int take(int *numbers);

/* Never returns, and ends in no call. */
__attribute__((noreturn, noinline)) void halt(int *numbers) {
    numbers[0] = take(numbers);
    __builtin_trap();
}

/* Its last instruction is a call of abort. */
void ends_in_abort(int value) {
    int numbers[6];
    numbers[value & 3] = value;
    if (take(numbers) == value) {
        numbers[0] = take(numbers + 1);
    }
    abort();
}

int behind_abort(int value) {
    return value + 1;
}

/* Its last instruction is a call of a function of this file. */
void ends_in_halt(int value) {
    int numbers[10];
    numbers[value & 7] = value;
    halt(numbers);
}

int behind_halt(int value) {
    int numbers[20];
    numbers[value & 15] = value;
    return take(numbers) + numbers[0];
}

int begin(int value) {
    if (value > 4) {
        ends_in_abort(value);
    }
    ends_in_halt(value);
    return 0;
}
