/* What last_call.c calls and does not define. */
int take(int *numbers) {
    return numbers[1];
}

__attribute__((noreturn)) void abort(void) {
    __builtin_trap();
}
