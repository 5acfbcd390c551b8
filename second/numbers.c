/* The input of the program `numbers` (numbers input) and what it must print (numbers expect): quotients to the nearest and whole roots, worked
   out here in 128 bits and by bisection. A record is 17 bytes, a letter and two numbers a and b: n is a/b with a half going up, m is -a/b in
   the same way, a is a/b with a half going away from zero, b is -a/b in the same way, and r is the root of a, printed with its turns. */
#include "root.h"

#include <inttypes.h>
#include <stdint.h>
#include <stdio.h>
#include <stdlib.h>
#include <string.h>

static int expect;

/* floor((2a + b) / 2b), by 128-bit division that is put right where it rounded up */
static int64_t nearest(int64_t a, uint64_t b)
{
    __int128 top = 2 * (__int128)a + (__int128)b, under = 2 * (__int128)b;
    __int128 q = top / under;
    if (q * under > top)
        q--;
    return (int64_t)q;
}

/* the two whole numbers around a/b, and of them the nearer one; where both are as near, the one that is farther from zero */
static int64_t nearest_away(int64_t a, uint64_t b)
{
    __int128 size = a < 0 ? -(__int128)a : a, inner = size / b, outer = inner + 1;
    __int128 found = size - inner * b < outer * b - size ? inner : outer;
    return (int64_t)(a < 0 ? -found : found);
}

/* the largest r with r*r <= x, by halving an interval */
static uint64_t root(uint64_t x)
{
    uint64_t low = 0, high = UINT64_C(4294967296);
    while (low + 1 < high) {
        uint64_t mid = low + (high - low) / 2;
        if ((unsigned __int128)mid * mid <= x)
            low = mid;
        else
            high = mid;
    }
    return low;
}

static void put_u64(uint64_t x)
{
    for (int i = 0; i < 8; i++)
        putchar((int)(x >> 8 * i & 255));
}

static void quotient(int letter, int64_t a, uint64_t b)
{
    int64_t top = letter == 'm' || letter == 'b' ? -a : a;
    if (expect) {
        printf("%" PRId64 "\n", letter == 'n' || letter == 'm' ? nearest(top, b) : nearest_away(top, b));
        return;
    }
    putchar(letter);
    put_u64((uint64_t)a);
    put_u64(b);
}

/* the turns of x, which end at its root and are no more than its binary digits, of which 0 has none */
static unsigned right_turns(uint64_t x)
{
    uint64_t left;
    unsigned turns = root_turns(x, &left);
    if (left == root(x) && turns <= binary_digits(x))
        return turns;
    fprintf(stderr, "numbers: the root of %" PRIu64 " is %" PRIu64 ", and %u turns leave %" PRIu64 "\n", x, root(x), turns, left);
    exit(3);
}

static void square_root(uint64_t x)
{
    unsigned turns = right_turns(x);
    if (expect) {
        printf("%" PRIu64 " %u\n", root(x), turns);
        return;
    }
    putchar('r');
    put_u64(x);
    put_u64(0);
}

/* the numbers one below x, x and one above it, as far as they are there */
static void around(uint64_t x)
{
    if (x > 0)
        square_root(x - 1);
    square_root(x);
    if (x < UINT64_MAX)
        square_root(x + 1);
}

/* around the squares of numbers one below a power of two, of the power and of one above it; of numbers that grow by 7/5; and of 2^32 - 1 */
static void around_squares(void)
{
    for (unsigned j = 0; j <= 32; j++)
        for (uint64_t r = (UINT64_C(1) << j) - 1; r <= (UINT64_C(1) << j) + 1; r++)
            if (r < UINT64_C(4294967296))
                around(r * r);
    for (uint64_t r = 5; r < UINT64_C(4294967296); r = r * 7 / 5)
        around(r * r);
    around(UINT64_C(4294967295) * UINT64_C(4294967295));
}

/* around powers of two */
static void around_powers(void)
{
    for (unsigned j = 0; j < 64; j++)
        around(UINT64_C(1) << j);
}

/* so many numbers of 1 to 64 binary digits in turn, drawn by xorshift */
static void drawn(unsigned count)
{
    uint64_t state = UINT64_C(0x9E3779B97F4A7C15);
    for (unsigned i = 0; i < count; i++) {
        state ^= state << 13;
        state ^= state >> 7;
        state ^= state << 17;
        square_root((state | UINT64_C(1) << 63) >> i % 64);
    }
}

int main(int argc, char **argv)
{
    const uint64_t divisors[] = {1, 2, 3, 4, 5, 9360, 65536, 196608, 780000, 265617408, UINT64_C(1099511627775), UINT64_C(1099511627776)};
    /* halves of the even divisors, odd multiples of these halves, and numbers just beside them */
    const int64_t tops[] = {0, 1, 2, 3, 4, 5, 6, 7, 4679, 4680, 4681, 14039, 14040, 14041, 23400, 32767, 32768, 32769, 98303, 98304, 98305,
                            163840, 294912, 390000, 390001, 1170000, 132808703, 132808704, 132808705, 398426112, INT64_C(29951995320),
                            INT64_C(549755813888), INT64_C(135995980087296), INT64_C(1152921504606846975), INT64_C(1152921504606846976)};
    if (argc != 2 || (strcmp(argv[1], "input") && strcmp(argv[1], "expect")))
        return 2;
    expect = !strcmp(argv[1], "expect");
    for (size_t i = 0; i < sizeof tops / sizeof *tops; i++)
        for (size_t j = 0; j < sizeof divisors / sizeof *divisors; j++) {
            quotient('n', tops[i], divisors[j]);
            quotient('m', tops[i], divisors[j]);
            quotient('a', tops[i], divisors[j]);
            quotient('b', tops[i], divisors[j]);
        }
    for (uint64_t r = 0; r < 40; r++)
        square_root(r);
    for (uint64_t r = 3; r < UINT64_C(4294967296); r = r * 3 + 1) {
        square_root(r * r - 1);
        square_root(r * r);
        square_root(r * r + 2 * r);
    }
    square_root(UINT64_C(18446744065119617024));
    square_root(UINT64_C(18446744065119617025));
    square_root(UINT64_MAX);
    for (uint64_t x = 0; x < 4; x++)
        square_root(x);
    around_squares();
    around_powers();
    square_root(UINT64_MAX);
    drawn(100);
    return 0;
}
