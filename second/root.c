#include "root.h"

#define ROOT_MOST UINT64_C(4294967295)

typedef unsigned __int128 wide;

/* Binary digits, counted one by one. */
unsigned binary_digits(uint64_t x)
{
    unsigned digits = 0;

    for (; x != 0; x >>= 1)
        digits++;
    return digits;
}

/* The step from r: half of r and x / r together, both without remainder. */
static wide step(wide x, wide r)
{
    return (r + x / r) / 2;
}

/* The root of 0 is 0 without a turn. Else it starts at one more than two steps from
 * 2 to the power of half of the digits, at most at 2^32 - 1, and steps, a turn
 * each, while the square is above x. */
unsigned root_turns(uint64_t x, uint64_t *left)
{
    wide r = (wide)1 << binary_digits(x) / 2;
    unsigned turns = 0;

    *left = 0;
    if (x == 0)
        return 0;
    r = step(x, step(x, r)) + 1;
    if (r > ROOT_MOST)
        r = ROOT_MOST;
    for (; r * r > x; turns++)
        r = step(x, r);
    *left = (uint64_t)r;
    return turns;
}
