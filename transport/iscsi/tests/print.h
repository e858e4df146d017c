/* Prints replies as sgrun does. */
#ifndef PRINT_H
#define PRINT_H

#include "session.h"

/* Prints the reply to the command of a line. With `has_bytes` sense data is also printed as bytes,
 * and so is data-in that came with it. */
void print_answer(unsigned long line, const struct answer *answer, int has_bytes);

#endif
