/* Compares the two setting readers on many blocks, sound and unsound. */
#include "../include/tdp.h"
#include "draw.h"

#include <stdio.h>
#include <string.h>

#define BLOCKS 100000
#define KINDS 16
#define LONGEST 1100
#define SHOWN 5

/* A block under trial: bytes and the length handed over. */
struct trial {
    uint8_t bytes[LONGEST];
    size_t length;
};

/* A sound block that both readers accept, of each curve; slopes fall in some tenths,
 * here and below, which a reader doesn't mind (02, card 7). */
static void sound(struct draw *d, struct trial *t)
{
    struct setting s;

    draw_any_setting(d, (uint8_t)draw_from(d, 2, 4), &s);
    draw_overcurrent(d, (uint8_t)draw_from(d, 0, CURVES), &s);
    lay_setting(&s, t->bytes);
}

/* Every field in range, factors anywhere around their limits. */
static void wide(struct draw *d, struct trial *t)
{
    struct setting s;

    draw_wide_setting(d, &s);
    draw_overcurrent(d, (uint8_t)draw_from(d, 0, CURVES), &s);
    lay_setting(&s, t->bytes);
}

/* One factor, or the second largest, at its limit or one to either side. */
static void factor_edge(struct draw *d, struct trial *t)
{
    static const int64_t target[6] = {FACTOR_HIGHEST - 1,       FACTOR_HIGHEST,
                                      FACTOR_HIGHEST + 1,       FACTOR_SECOND_LOWEST,
                                      FACTOR_SECOND_LOWEST - 1, FACTOR_SECOND_LOWEST};
    int64_t aim = target[draw_from(d, 0, 5)];
    struct setting s;
    size_t z;

    draw_any_setting(d, (uint8_t)draw_from(d, 2, 4), &s);
    z = (size_t)draw_from(d, 0, s.ends - 1);
    if (aim <= FACTOR_SECOND_LOWEST)
        for (size_t i = 0; i < s.ends; i++)
            aim_factor(d, s.power, draw_from(d, 0, FACTOR_SECOND_LOWEST - 1),
                       &s.end[i]);
    if (aim <= FACTOR_SECOND_LOWEST && draw_chance(d, 80))
        aim_factor(d, s.power, draw_from(d, FACTOR_SECOND_LOWEST, FACTOR_HIGHEST),
                   &s.end[(z + 1) % s.ends]);
    aim_factor(d, s.power, aim, &s.end[z]);
    lay_setting(&s, t->bytes);
}

/* One field at an edge or one past it; a field of an unused end too. */
static void field_edge(struct draw *d, struct trial *t, size_t sweep)
{
    const struct field *f = &FIELD[sweep % FIELDS];
    const uint32_t edge[6] = {f->low, f->high, f->low - 1, f->high + 1, 0, ~0u};

    put_field(t->bytes, f, edge[sweep / FIELDS % 6]);
    if (draw_chance(d, 90))
        seal_block(t->bytes);
}

/* A byte from 7 on, over all offsets in turn, set to another value: spare
 * bytes, bytes of unused ends, and field bytes alike. */
static void spare_byte(struct draw *d, struct trial *t, size_t sweep)
{
    static const size_t spare[9] = {7, 22, 23, 34, 35, 46, 47, 58, 59};
    size_t at = sweep % 442 < 433 ? 77 + sweep % 442 : spare[sweep % 442 - 433];

    if (sweep % 7 == 3)
        at = 36 + sweep / 7 % 24;
    t->bytes[at] = (uint8_t)draw_from(d, 1, 255);
    seal_block(t->bytes);
}

/* One bit of 4,096 the other way. */
static void flip_bit(struct trial *t, size_t sweep, int sealed)
{
    sweep %= 8 * BLOCK_BYTES;
    t->bytes[sweep / 8] ^= (uint8_t)(1u << sweep % 8);
    if (sealed)
        seal_block(t->bytes);
}

/* A wrong mark: one byte or bit of it, the sample block's, or all of it. */
static void wrong_mark(struct draw *d, struct trial *t, size_t sweep)
{
    if (sweep % 4 == 0)
        t->bytes[0] = 0x53;
    else if (sweep % 4 == 1)
        t->bytes[sweep / 4 % 4] ^= (uint8_t)(1u << sweep / 16 % 8);
    else if (sweep % 4 == 2)
        t->bytes[sweep / 4 % 4] = (uint8_t)draw_from(d, 0, 255);
    else
        for (size_t i = 0; i < 4; i++)
            t->bytes[i] = (uint8_t)draw_word(d);
    seal_block(t->bytes);
}

/* A wrong check: off by one, swapped, or 255 where the remainder is 0. */
static void wrong_check(struct draw *d, struct trial *t, size_t sweep)
{
    uint8_t *a = t->bytes + 510, *b = t->bytes + 511, old = *a;

    if (sweep % 4 == 0) {
        *a = *b;
        *b = old;
    } else if (sweep % 4 == 1) {
        t->bytes[510 + sweep / 4 % 2] += draw_chance(d, 50) ? 1 : 255;
    } else if (sweep % 4 == 2) {
        t->bytes[sweep / 4 % 510] ^= 0xFF;
    } else {
        for (int i = 0; i < 4000 && *a != 0 && *b != 0; i++) {
            put_field(t->bytes, &FIELD[24], (uint32_t)draw_from(d, 1500, 10000));
            seal_block(t->bytes);
        }
        *a = *a == 0 ? 255 : *a;
        *b = *b == 0 ? 255 : *b;
    }
}

/* Several faults at once, so that the order of the refusals shows. */
static void several(struct draw *d, struct trial *t)
{
    int64_t faults = draw_from(d, 2, 5);
    int sealed = 1;

    for (int64_t i = 0; i < faults; i++) {
        size_t sweep = (size_t)draw_from(d, 0, 9999);
        int64_t kind = draw_from(d, 0, 99);

        if (kind < 45)
            field_edge(d, t, sweep);
        else if (kind < 60)
            spare_byte(d, t, sweep);
        else if (kind < 70)
            wrong_mark(d, t, sweep);
        else if (kind < 90)
            t->bytes[4] = (uint8_t)draw_from(d, 0, 6);
        else if (kind < 95)
            sealed = 0;
        else
            t->length = (size_t)draw_from(d, 500, 520);
    }
    if (sealed)
        seal_block(t->bytes);
}

/* Bytes of no setting: random, all zero, all ones; with mark or check. */
static void no_setting(struct draw *d, struct trial *t, size_t sweep)
{
    if (sweep % 3 == 0)
        memset(t->bytes, sweep / 3 % 2 ? 0xFF : 0, LONGEST);
    else
        for (size_t i = 0; i < LONGEST; i++)
            t->bytes[i] = (uint8_t)draw_word(d);
    if (sweep / 6 % 2)
        memcpy(t->bytes, "\x54\x44\x50\x31", 4);
    if (sweep / 12 % 2)
        t->bytes[4] = (uint8_t)draw_from(d, 1, 5);
    if (sweep / 24 % 2)
        seal_block(t->bytes);
}

/* Builds block number i: its kind, and its place in that kind's sweep. */
static void build(struct draw *d, size_t i, struct trial *t)
{
    size_t kind = i % KINDS, sweep = i / KINDS;

    memset(t->bytes, 0, LONGEST);
    t->length = BLOCK_BYTES;
    if (kind < 3)
        wide(d, t);
    else
        sound(d, t);
    switch (kind) {
    case 3: case 4: factor_edge(d, t); break;
    case 5: case 6: field_edge(d, t, 2 * sweep + kind - 5); break;
    case 7: spare_byte(d, t, sweep); break;
    case 8: flip_bit(t, sweep, 0); break;
    case 9: flip_bit(t, sweep, 1); break;
    case 10: wrong_mark(d, t, sweep); break;
    case 11: t->length = sweep % (LONGEST + 1); break;
    case 12: wrong_check(d, t, sweep); break;
    case 13: no_setting(d, t, sweep); break;
    case 14: several(d, t); break;
    case 15: t->bytes[4] = (uint8_t)(sweep % 256); seal_block(t->bytes); break;
    default: break;
    }
}

int main(void)
{
    static struct trial t;
    struct draw d = {0xB10C5EED};
    unsigned count[8] = {0}, falling[8] = {0}, same = 0, differ = 0;

    for (size_t i = 0; i < BLOCKS; i++) {
        struct setting s;
        size_t offset;
        uint32_t ours, second;

        build(&d, i, &t);
        ours = tdp_read_setting(t.bytes, t.length);
        second = read_setting(t.bytes, t.length, &s, &offset);
        take_setting(t.bytes, &s);
        count[second]++;
        falling[second] += s.slope2 < s.slope1;
        same += second == ACCEPTED && s.slope2 == s.slope1;
        if (ours != second && differ++ < SHOWN)
            printf("blocks: block %zu, tdp %u, second %u\n", i, ours, second);
    }
    printf("blocks: %u tried, %u accepted, refused 1:%u 2:%u 3:%u 4:%u 5:%u 6:%u "
           "7:%u, %u differ\n", BLOCKS, count[0], count[1], count[2], count[3],
           count[4], count[5], count[6], count[7], differ);
    printf("blocks: slopes that fall: %u accepted, refused 1:%u 2:%u 3:%u 4:%u 5:%u "
           "6:%u 7:%u; slopes the same: %u accepted\n", falling[0], falling[1],
           falling[2], falling[3], falling[4], falling[5], falling[6], falling[7], same);
    return differ != 0 || falling[0] == 0 || same == 0;
}
