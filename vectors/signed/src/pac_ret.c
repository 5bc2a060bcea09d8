/* Built with pac-ret: a function that saves its return address signs it first, and one that saves none leaves it as it
 * is. */
extern int signed_leaf(int *place, int value);
extern int between(int *place, int value);

/* Calls nobody: its return address stays in LR, and pac-ret does not sign it. */
__attribute__((noinline)) int unsigned_leaf(int *place, int value) {
    *place = value;
    return value + 1;
}

/* Asks for room by alloca, so that its CFA counts from FP. */
int within(int *place, int value) {
    int *room = __builtin_alloca(4 * (unsigned)value);
    room[0] = value;
    int found = value > 4 ? unsigned_leaf(place, value) : signed_leaf(place, value);
    return found + room[0];
}

/* Hands down address 0 as the place to write to, which is the fault. */
int begin(int value) {
    int numbers[6];
    numbers[value & 3] = value;
    return between((int *)0, value) + numbers[1];
}
