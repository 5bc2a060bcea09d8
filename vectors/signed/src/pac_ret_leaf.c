/* Built with pac-ret+leaf: calls nobody and signs its return address all the same, which stays in LR. Without the array
 * the compiler signs and unsigns before it writes; with it the fault lies between. */
int signed_leaf(int *place, int value) {
    volatile int numbers[4];
    numbers[value & 3] = value;
    *place = numbers[1];
    return numbers[0];
}
