/* The C calls on blocks that lie at either edge of what may be read: nothing
 * before the first byte or nothing behind the last can be read, and nothing at
 * all be written. Lengths of 0, with a null pointer too, of one byte less and
 * one more than a block, and of the whole page. */
#define _DEFAULT_SOURCE
#include "../include/tdp.h"
#include "draw.h"

#include <stdio.h>
#include <string.h>
#include <sys/mman.h>
#include <unistd.h>

#define PAIRS 250
#define LENGTHS 6
#define SHOWN 5

/* One page that can be read between two that cannot. */
struct page {
    uint8_t *bytes;
    size_t size;
};

/* Bytes as they are handed over. */
struct lent {
    const uint8_t *bytes;
    size_t length;
};

static unsigned tried, differ, count[SLOPES_FALL + 1];

/* Maps three pages and opens the one in the middle. */
static int map_page(struct page *p)
{
    uint8_t *at;

    p->size = (size_t)sysconf(_SC_PAGESIZE);
    at = mmap(NULL, 3 * p->size, PROT_NONE, MAP_PRIVATE | MAP_ANONYMOUS, -1, 0);
    p->bytes = at + p->size;
    return at != MAP_FAILED && mprotect(p->bytes, p->size, PROT_READ) == 0;
}

/* Puts bytes at the start of a page or at its end, and closes it to writing. */
static struct lent lend(const struct page *p, const uint8_t *block, size_t length,
                        int at_end)
{
    uint8_t *at = at_end ? p->bytes + p->size - length : p->bytes;

    mprotect(p->bytes, p->size, PROT_READ | PROT_WRITE);
    memset(p->bytes, 0xA5, p->size);
    memcpy(at, block, length < BLOCK_BYTES ? length : BLOCK_BYTES);
    mprotect(p->bytes, p->size, PROT_READ);
    return (struct lent){at, length};
}

/* Both calls against the second program. */
static void compare(struct lent setting, struct lent samples)
{
    struct setting s;
    size_t offset;
    uint32_t read = read_setting(setting.bytes, setting.length, &s, &offset);
    uint32_t all = measure_block(setting.bytes, setting.length, samples.bytes,
                                 samples.length);
    uint32_t ours_read = tdp_read_setting(setting.bytes, setting.length);
    uint32_t ours = tdp_measure(setting.bytes, setting.length, samples.bytes,
                                samples.length);

    tried++;
    count[all < 100 ? all : 0]++;
    if ((ours != all || ours_read != read) && differ++ < SHOWN)
        printf("edges: lengths %zu and %zu, measured tdp %u second %u, read tdp %u "
               "second %u\n", setting.length, samples.length, ours, all, ours_read, read);
}

/* A pair of blocks, of 21 sets; some spoiled by the last sample, the zero byte
 * at 509 or the last byte of the check; one of five with slopes that fall. */
static void draw_pair(struct draw *d, size_t i, uint8_t *setting, uint8_t *samples)
{
    int16_t list[BLOCK_NUMBERS];
    struct setting s;
    struct wave wave;

    draw_setting(d, (uint8_t)draw_from(d, 2, 4), &s);
    s.confirm = (uint8_t)draw_from(d, 1, 4);
    draw_wave(d, &s, draw_spread(d, 400, 40000), 0, &wave);
    for (size_t k = 0; k < BLOCK_SETS; k++)
        wave_set(&wave, &s, k, list + SET_NUMBERS * k);
    if (i % 8 == 1)
        list[BLOCK_NUMBERS - 1] = draw_chance(d, 50) ? 32001 : 1;
    if (i % 5 == 4)
        draw_falling(d, &s);
    lay_setting(&s, setting);
    write_samples(samples, BLOCK_BYTES, 0, list, BLOCK_NUMBERS);
    setting[509] = i % 16 == 3;
    samples[509] = i % 16 == 7;
    seal_block(setting);
    seal_block(samples);
    setting[511] ^= i % 16 == 11;
    samples[511] ^= i % 16 == 15;
}

/* A pair at each length of one block, the other whole; both at either edge. */
static void compare_pair(const struct page *a, const struct page *b,
                         const uint8_t *setting, const uint8_t *samples)
{
    const size_t length[LENGTHS] = {BLOCK_BYTES, BLOCK_BYTES - 1, BLOCK_BYTES + 1, 0, 1,
                                    a->size};

    for (size_t k = 0; k < 4 * LENGTHS; k++) {
        int end_a = k & 1, end_b = k >> 1 & 1;

        compare(lend(a, setting, length[k / 4], end_a),
                lend(b, samples, BLOCK_BYTES, end_b));
        compare(lend(a, setting, BLOCK_BYTES, end_a),
                lend(b, samples, length[k / 4], end_b));
    }
}

/* Null pointers of length 0, for either block and for both. */
static void compare_null(const struct page *a, const uint8_t *setting,
                         const uint8_t *samples)
{
    const struct lent none = {NULL, 0};

    compare(none, none);
    compare(none, lend(a, samples, BLOCK_BYTES, 1));
    compare(lend(a, setting, BLOCK_BYTES, 1), none);
}

int main(void)
{
    uint8_t setting[BLOCK_BYTES], samples[BLOCK_BYTES];
    struct draw d = {0xED6E};
    struct page a, b;

    if (!map_page(&a) || !map_page(&b))
        return 2;
    for (size_t i = 0; i < PAIRS; i++) {
        draw_pair(&d, i, setting, samples);
        compare_pair(&a, &b, setting, samples);
        compare_null(&a, setting, samples);
    }
    printf("edges: %u tried, %u measured, refused 1:%u 2:%u 5:%u 9:%u 10:%u 11:%u "
           "17:%u, %u differ\n", tried, count[0], count[1], count[2], count[5],
           count[9], count[10], count[11], count[17], differ);
    return differ != 0;
}
