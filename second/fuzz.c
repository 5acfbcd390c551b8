/* Compares the host's two calls with the second program on random pairs of a
 * setting block and a sample block: mostly sound, some damaged, at more than
 * one place too. A sample block that is read is then measured with its samples
 * negated, which must give the same number. Two of five pairs come once more with
 * slopes that fall, most of these with other faults beside. */
#include "../include/tdp.h"
#include "draw.h"

#include <stdio.h>
#include <stdlib.h>
#include <string.h>

#define DEFAULT_COUNT 10000
#define ROOM 600
#define SHOWN 5

/* Both blocks of a measuring call and the lengths handed over. */
struct pair {
    uint8_t setting[ROOM], samples[ROOM];
    size_t setting_length, samples_length;
};

/* A sound setting; mostly one that soon trips. */
static void draw_pair_setting(struct draw *d, struct setting *s)
{
    draw_setting(d, (uint8_t)draw_from(d, 2, 4), s);
    if (draw_chance(d, 80))
        s->confirm = (uint8_t)draw_from(d, 1, 6);
    if (draw_chance(d, 70)) {
        s->pick_up = (uint16_t)draw_from(d, 100, 500);
        s->slope1 = (uint16_t)draw_from(d, 10, 60);
        if (s->slope2 < s->slope1)
            s->slope2 = s->slope1;
    }
    if (draw_chance(d, 40))
        s->flags = 0;
    if (draw_chance(d, 40))
        draw_overcurrent(d, (uint8_t)draw_from(d, 1, CURVES), s);
}

/* Pairs of healthy banks, and those of them with neutral current. */
static unsigned long healthy, neutral;

/* Up to 21 sets: a wave that sets in at some set, a healthy bank, half of those that
 * can have neutral current with it, or noise. */
static size_t draw_sets(struct draw *d, const struct setting *s, int16_t *list)
{
    size_t sets = (size_t)(draw_chance(d, 80) ? draw_from(d, 12, BLOCK_SETS)
                                              : draw_from(d, 0, BLOCK_SETS));
    size_t from = (size_t)draw_from(d, 0, 9);
    int64_t kind = draw_from(d, 0, 9);
    struct wave wave;
    struct bank bank;

    draw_wave(d, s, draw_spread(d, 100, 40000), (unsigned)draw_from(d, 0, 3), &wave);
    draw_bank(d, s, &bank);
    if (draw_chance(d, 50))
        draw_neutral(d, s, &bank);
    healthy += kind == 7;
    neutral += kind == 7 && bank.neutral;
    for (size_t k = 0; k < sets; k++) {
        int16_t *at = list + SET_NUMBERS * k;

        memset(at, 0, SET_NUMBERS * sizeof at[0]);
        if (kind < 7 && k >= from)
            wave_set(&wave, s, k, at);
        else if (kind == 7)
            healthy_set(d, s, &bank, k, at);
        else if (kind > 7)
            for (size_t i = 0; i < 3u * s->ends; i++)
                at[i] = (int16_t)draw_from(d, -SAMPLE_LIMIT, SAMPLE_LIMIT);
    }
    return sets;
}

/* One sample put at or past an edge, or on any end. */
static void edge_sample(struct draw *d, int16_t *list, size_t sets)
{
    static const int16_t edge[8] = {32000, -32000, 32001, -32001, 32767, -32768, 1, -1};

    if (sets != 0)
        list[draw_from(d, 0, (int64_t)(SET_NUMBERS * sets) - 1)] =
            edge[draw_from(d, 0, 7)];
}

/* Damage to a block: a bit, a byte, a field, a mark, the length, or all. */
static void damage(struct draw *d, uint8_t *block, size_t *length)
{
    int64_t kind = draw_from(d, 0, 6), at = draw_from(d, 0, 511);
    const struct field *f = &FIELD[draw_from(d, 0, FIELDS - 1)];

    if (kind == 0)
        block[at] ^= (uint8_t)(1u << draw_from(d, 0, 7));
    else if (kind == 1)
        block[draw_chance(d, 50) ? at : at % 79] = (uint8_t)draw_word(d);
    else if (kind == 2)
        put_field(block, f, draw_chance(d, 50) ? f->low - 1 : f->high + 1);
    else if (kind == 3)
        block[draw_from(d, 0, 5)] ^= (uint8_t)draw_from(d, 1, 255);
    else if (kind == 4)
        *length = (size_t)draw_from(d, draw_chance(d, 50) ? 0 : 510, ROOM);
    else if (kind == 5)
        put_field(block, f, (uint32_t)draw_from(d, f->low, f->high));
    else if (draw_chance(d, 30))
        for (size_t i = 0; i < ROOM; i++)
            block[i] = (uint8_t)draw_word(d);
    if (draw_chance(d, 85))
        seal_block(block);
}

/* One pair, three of four of them sound. */
static void build(struct draw *d, struct pair *p)
{
    int16_t list[BLOCK_NUMBERS];
    struct setting s;
    size_t sets;

    memset(p, 0, sizeof *p);
    p->setting_length = p->samples_length = BLOCK_BYTES;
    draw_pair_setting(d, &s);
    sets = draw_sets(d, &s, list);
    if (sets >= WINDOW_SETS && draw_chance(d, 20) &&
        aim_high_set(d, list + SET_NUMBERS * (sets - WINDOW_SETS), &s))
        s.confirm = 1;
    if (draw_chance(d, 8))
        edge_sample(d, list, sets);
    lay_setting(&s, p->setting);
    write_samples(p->samples, BLOCK_BYTES, 0, list, SET_NUMBERS * sets);
    for (unsigned chance = 12; draw_chance(d, chance); chance = 50)
        damage(d, p->setting, &p->setting_length);
    for (unsigned chance = 12; draw_chance(d, chance); chance = 50)
        damage(d, p->samples, &p->samples_length);
}

/* The pair with every sample negated; 0 when the sample block is not read. */
static int turn_pair(const struct pair *p, struct pair *turned)
{
    int16_t list[BLOCK_NUMBERS];
    size_t n = 0;

    if (read_samples(p->samples, p->samples_length, list, &n) != ACCEPTED)
        return 0;
    turn_samples(list, n);
    *turned = *p;
    write_samples(turned->samples, BLOCK_BYTES, 0, list, n);
    return 1;
}

/* Damage to a sample block by number: length, check, mark, 22 sets, or a byte that
 * must be zero; from 5 on none. */
static void spoil_samples(struct draw *d, size_t kind, struct pair *p)
{
    if (kind == 0)
        p->samples_length = (size_t)draw_from(d, 0, BLOCK_BYTES - 1);
    else if (kind == 2)
        p->samples[0] ^= (uint8_t)draw_from(d, 1, 255);
    else if (kind == 3)
        p->samples[1] = (uint8_t)(draw_chance(d, 50) ? 22 : draw_from(d, 22, 255));
    else if (kind == 4)
        p->samples[draw_from(d, 2, 3)] = (uint8_t)draw_from(d, 1, 255);
    if (kind < 5)
        seal_block(p->samples);
    if (kind == 1)
        p->samples[draw_from(d, 510, 511)] ^= (uint8_t)draw_from(d, 1, 254);
}

/* Pair number i with slopes that fall; by a power of 1 or 50,000 in two of seven, 6
 * or 7 mostly comes first. A check that was wrong stays so. */
static void fall_pair(struct draw *d, size_t i, const struct pair *p, struct pair *fallen)
{
    struct setting s;
    size_t offset;
    int right = read_setting(p->setting, BLOCK_BYTES, &s, &offset) != CHECK_WRONG;

    *fallen = *p;
    draw_falling(d, &s);
    put_field(fallen->setting, &FIELD[22], s.slope1);
    put_field(fallen->setting, &FIELD[23], s.slope2);
    if (i % 7 < 2)
        put_field(fallen->setting, &FIELD[3], i % 7 == 0 ? 1 : 50000);
    if (right)
        seal_block(fallen->setting);
    spoil_samples(d, i % 9, fallen);
}

/* Whether both calls give what the second program gives; shows it if not. */
static int same(const struct pair *p, const char *what, size_t i, uint32_t measured,
                int show)
{
    struct setting s;
    size_t offset;
    uint32_t read = read_setting(p->setting, p->setting_length, &s, &offset);
    uint32_t ours = tdp_measure(p->setting, p->setting_length, p->samples,
                                p->samples_length);
    uint32_t ours_read = tdp_read_setting(p->setting, p->setting_length);

    if (ours == measured && ours_read == read)
        return 1;
    if (show)
        printf("fuzz: %s %zu, measured tdp %u second %u, read tdp %u second %u\n",
               what, i, ours, measured, ours_read, read);
    return 0;
}

/* What pairs with slopes that fall come to: by refusal, and those that come to 17 by
 * what their sample block is refused for, 0 if it is read. */
static unsigned long fell[SLOPES_FALL + 1], beside[ZERO_BYTE_WRONG + 1];

/* One pair with slopes that fall; whether both calls are as they must be. */
static int fall(struct draw *d, size_t i, const struct pair *p, int show)
{
    static struct pair f;
    int16_t list[BLOCK_NUMBERS];
    size_t n = 0;
    uint32_t measured;

    fall_pair(d, i, p, &f);
    measured = measure_block(f.setting, f.setting_length, f.samples, f.samples_length);
    fell[measured < 100 ? measured : 0]++;
    if (measured == SLOPES_FALL)
        beside[read_samples(f.samples, f.samples_length, list, &n)]++;
    return same(&f, "falling block", i, measured, show);
}

/* Tells what pairs with slopes that fall come to; none is measured. */
static int tell_fallen(void)
{
    static const uint8_t samples[6] = {0, 1, 2, 3, 8, 9};

    printf("fuzz: slopes that fall, refused");
    for (size_t i = 1; i < 8; i++)
        printf(" %zu:%lu", i, fell[i]);
    printf(" 17:%lu; at 17 the sample block", fell[SLOPES_FALL]);
    for (size_t i = 0; i < 6; i++)
        printf(" %u:%lu", samples[i], beside[samples[i]]);
    printf("; %lu measured\n", fell[0]);
    return fell[0] == 0;
}

int main(int argc, char **argv)
{
    static struct pair p, t;
    struct draw d = {0xF022}, falling = {0xFA11};
    unsigned long count = argc > 1 ? strtoul(argv[1], NULL, 10) : DEFAULT_COUNT;
    unsigned long latched = 0, refused = 0, turned = 0, differ = 0;

    for (size_t i = 0; i < count; i++) {
        uint32_t measured;

        build(&d, &p);
        measured = measure_block(p.setting, p.setting_length, p.samples,
                                 p.samples_length);
        latched += measured > 100;
        refused += measured < 100;
        differ += !same(&p, "block", i, measured, differ < SHOWN);
        if (turn_pair(&p, &t)) {
            turned++;
            differ += !same(&t, "turned block", i, measured, differ < SHOWN);
        }
        if (i % 5 < 2)
            differ += !fall(&falling, i, &p, differ < SHOWN);
    }
    printf("fuzz: %lu tried, %lu latched, %lu refused, %lu turned, %lu differ; %lu of "
           "healthy banks, %lu of these with neutral current\n", count, latched,
           refused, turned, differ, healthy, neutral);
    return !tell_fallen() || differ != 0;
}
