/* Not proved. Tries the device without a guest and without the library: its requests, what a broken guest
 * gets, task management, and what front ends do.
 *     device [ROUNDS]    also serves so many rounds of random chains.
 * If something is not as it should be, it prints a line and has status 1. Otherwise it prints how many things
 * it has looked at. */
#include "driver.h"

int main(int count, char **words)
{
    test_commands();
    test_broken_guests();
    test_functions();
    test_front_ends();
    test_random_guests(count > 1 ? (unsigned)strtoul(words[1], NULL, 10) : 0);
    printf("%lu checks\n", checks);
    return 0;
}
