/* Turns of the relay's root (document 02, card 5). */
#ifndef SECOND_ROOT_H
#define SECOND_ROOT_H

#include <stdint.h>

/* Binary digits of x; 0 has none. */
unsigned binary_digits(uint64_t x);

/* Turns that the root of x takes, and the number that they leave. */
unsigned root_turns(uint64_t x, uint64_t *left);

#endif
