/* Built without signatures: saves its return address as it is, and stands between two functions that sign theirs. */
extern int within(int *place, int value);

int between(int *place, int value) {
    int numbers[2];
    numbers[value & 1] = value;
    return within(place, value) + numbers[0];
}
