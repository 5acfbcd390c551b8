/* Times the host's measuring call against the second program's on full sample
 * blocks, and counts the turns of a root at light load and at faults. `speed`
 * prints the ratio for 2, 3 and 4 ends and the turns; `speed ours E count` and
 * `speed second E count` run one side alone; `speed stream E X count` writes a
 * setting block and so many sample blocks for the bench program, with curve 2 and
 * pick-up X, or with curve 0 where X is 0. */
#include "../include/tdp.h"
#include "draw.h"
#include "root.h"

#include <stdio.h>
#include <stdlib.h>
#include <string.h>
#include <time.h>

#define PAIRS 1024
#define ROUNDS 400

/* What flows: some tenths of the reference current through the bank, up to as much as
 * its ends can show, or that and the current of a fault inside. */
enum kind { LIGHT, THROUGH, FAULT };

/* Blocks to measure: settings of the same number of ends, 21 sets each. */
struct load {
    enum kind kind[PAIRS];
    uint8_t setting[PAIRS][BLOCK_BYTES], samples[PAIRS][BLOCK_BYTES];
};

typedef uint32_t measure_call(const uint8_t *, size_t, const uint8_t *, size_t);

/* The turns of roots: their number, their sum and the most of them. */
struct turns {
    uint64_t roots, sum;
    unsigned most;
};

/* A healthy bank: cosines of up to all that its ends can show, or at light load of
 * some tenths of the reference current and nothing else. */
static void draw_through(struct draw *d, const struct setting *s, enum kind kind,
                         struct bank *bank)
{
    draw_bank(d, s, bank);
    bank->shape = 0;
    if (kind != LIGHT)
        return;
    for (size_t z = 0; z < s->ends; z++) {
        bank->zero_sequence[z] = 0;
        for (int limb = 0; limb < 2; limb++) {
            bank->cosine[z][limb] = draw_from(d, -330000, 330000);
            bank->sine[z][limb] = draw_from(d, -330000, 330000);
        }
    }
}

/* The sets of one kind, all accepted; three of four faults have harmonics. */
static void draw_sets(struct draw *d, const struct setting *s, enum kind kind,
                      int16_t list[BLOCK_NUMBERS])
{
    struct wave wave;
    struct bank bank;

    draw_through(d, s, kind, &bank);
    draw_wave(d, s, draw_from(d, 2000, 40000), (unsigned)draw_from(d, 0, 3), &wave);
    for (size_t k = 0; k < BLOCK_SETS; k++) {
        int16_t *set = list + SET_NUMBERS * k, fault[SET_NUMBERS];

        healthy_set(d, s, &bank, k, set);
        wave_set(&wave, s, k, fault);
        for (size_t i = 0; kind == FAULT && i < SET_NUMBERS; i++)
            set[i] = clip_sample(set[i] + fault[i]);
    }
}

/* Pairs of all kinds, all groups and filters. */
static void build(struct load *load, uint8_t ends)
{
    struct draw d = {0x5BEED + ends};

    for (size_t i = 0; i < PAIRS; i++) {
        int16_t list[BLOCK_NUMBERS];
        struct setting s;

        draw_setting(&d, ends, &s);
        load->kind[i] = (enum kind)draw_from(&d, LIGHT, FAULT);
        draw_sets(&d, &s, load->kind[i], list);
        lay_setting(&s, load->setting[i]);
        write_samples(load->samples[i], BLOCK_BYTES, 0, list, BLOCK_NUMBERS);
    }
}

/* ---- Turns ---- */

/* c squared plus s squared of a harmonic, by document 01 and card 1 of 02: the sizes
 * of c and s to the nearest, a half going up. */
static uint64_t squares(const int32_t u[WINDOW_SETS], unsigned h)
{
    static const int64_t t[12] = {1560,  1351,  780,  0, -780, -1351,
                                  -1560, -1351, -780, 0, 780,  1351};
    int64_t c = 0, s = 0;

    for (unsigned k = 0; k < WINDOW_SETS; k++) {
        c += t[h * k % 12] * u[k];
        s += t[(h * k + 9) % 12] * u[k];
    }
    c = (llabs(c) + 4680) / 9360;
    s = (llabs(s) + 4680) / 9360;
    return (uint64_t)(c * c + s * s);
}

/* Counts the root of one amplitude. */
static void count_root(uint64_t x, struct turns *turns)
{
    uint64_t left;
    unsigned n = root_turns(x, &left);

    turns->roots++;
    turns->sum += n;
    if (n > turns->most)
        turns->most = n;
}

/* A system's numbers over a window, of each end times its sign. */
static void take_numbers(const int32_t *values, size_t y, const int sign[MAX_ENDS],
                         int32_t u[WINDOW_SETS])
{
    for (size_t k = 0; k < WINDOW_SETS; k++) {
        u[k] = 0;
        for (size_t z = 0; z < MAX_ENDS; z++)
            u[k] += sign[z] * values[SET_NUMBERS * k + 3 * z + y];
    }
}

/* Counts the roots of one system at a window: D, H2, H5 and those of R. */
static void count_system(const int32_t *values, size_t ends, size_t y,
                         struct turns *turns)
{
    static const int all[MAX_ENDS] = {1, 1, 1, 1}, two[MAX_ENDS] = {1, -1, 0, 0};
    int32_t u[WINDOW_SETS];

    take_numbers(values, y, all, u);
    count_root(squares(u, 1), turns);
    count_root(squares(u, 2), turns);
    count_root(squares(u, 5), turns);
    take_numbers(values, y, two, u);
    if (ends == 2)
        count_root(squares(u, 1), turns);
    for (size_t z = 0; ends > 2 && z < ends; z++) {
        int one[MAX_ENDS] = {0};

        one[z] = 1;
        take_numbers(values, y, one, u);
        count_root(squares(u, 1), turns);
    }
}

/* Counts the roots of all windows of the pairs of one kind. */
static void count_turns(const struct load *load, enum kind kind, struct turns *turns)
{
    int16_t list[BLOCK_NUMBERS];
    int32_t values[BLOCK_NUMBERS];
    size_t n = 0;

    for (size_t i = 0; i < PAIRS; i++) {
        struct setting s;

        if (load->kind[i] != kind)
            continue;
        take_setting(load->setting[i], &s);
        read_samples(load->samples[i], BLOCK_BYTES, list, &n);
        for (size_t k = 0; k < n; k += SET_NUMBERS)
            match_set(&s, list + k, values + k);
        for (size_t k = 0; k + WINDOW_NUMBERS <= n; k += SET_NUMBERS)
            for (size_t y = 0; y < SYSTEMS; y++)
                count_system(values + k, s.ends, y, turns);
    }
}

/* Prints the turns at one kind of load. */
static void tell_turns(const char *what, const struct turns *turns)
{
    printf("speed: %s, turns of a root: mean %.2f, most %u\n", what,
           (double)turns->sum / (double)turns->roots, turns->most);
}

/* ---- Times ---- */

/* So many calls over the pairs in turn; the sum keeps each from being left
 * out. */
static uint64_t run(const struct load *load, measure_call *call, unsigned long count)
{
    uint64_t sum = 0;

    for (unsigned long i = 0; i < count; i++)
        sum += call(load->setting[i % PAIRS], BLOCK_BYTES, load->samples[i % PAIRS],
                    BLOCK_BYTES);
    return sum;
}

/* Processor time of one round over all pairs, the least so far. */
static void time_round(const struct load *load, measure_call *call, clock_t *least,
                       uint64_t *sum)
{
    clock_t from = clock(), took;

    *sum += run(load, call, PAIRS);
    took = clock() - from;
    if (*least == 0 || took < *least)
        *least = took;
}

/* Whether both sides give the same answer for every pair; shows where not. */
static int same_answers(const struct load *load, uint8_t ends)
{
    int same = 1;

    for (size_t i = 0; i < PAIRS; i++) {
        uint32_t ours = tdp_measure(load->setting[i], BLOCK_BYTES, load->samples[i],
                                    BLOCK_BYTES);
        uint32_t second = measure_block(load->setting[i], BLOCK_BYTES,
                                        load->samples[i], BLOCK_BYTES);

        if (ours == second && ours >= 100)
            continue;
        printf("speed: E %u pair %zu, tdp %u, second %u\n", ends, i, ours, second);
        same = 0;
    }
    return same;
}

/* Both sides in turn, the best round of each; 0 when their answers differ. */
static int compare(const struct load *load, uint8_t ends)
{
    clock_t ours = 0, second = 0;
    uint64_t sum_ours = 0, sum_second = 0;

    for (int i = 0; i < ROUNDS; i++) {
        time_round(load, tdp_measure, &ours, &sum_ours);
        time_round(load, measure_block, &second, &sum_second);
    }
    printf("speed: E %u ratio %.2f\n", ends,
           (double)ours / (double)(second ? second : 1));
    return sum_ours == sum_second;
}

/* One side alone, for counting its instructions. */
static int alone(measure_call *call, const char *ends, const char *count)
{
    static struct load load;
    unsigned long e = strtoul(ends, NULL, 10), n = strtoul(count, NULL, 10);

    if (e < 2 || e > MAX_ENDS)
        return 2;
    build(&load, (uint8_t)e);
    printf("speed: E %lu, %lu calls, sum %llu\n", e, n,
           (unsigned long long)run(&load, call, n));
    return 0;
}

/* A setting and sample blocks of all kinds, one after another. */
static int stream(const char *ends, const char *pickup, const char *count)
{
    unsigned long e = strtoul(ends, NULL, 10), x = strtoul(pickup, NULL, 10);
    unsigned long n = strtoul(count, NULL, 10);
    struct draw d = {0x57EA + e};
    uint8_t block[BLOCK_BYTES];
    struct setting s;

    if (e < 2 || e > MAX_ENDS)
        return 2;
    draw_setting(&d, (uint8_t)e, &s);
    s.overcurrent = (uint16_t)x;
    s.curve = x != 0 ? CURVES : 0;
    lay_setting(&s, block);
    fwrite(block, 1, BLOCK_BYTES, stdout);
    for (unsigned long i = 0; i < n; i++) {
        int16_t list[BLOCK_NUMBERS];

        draw_sets(&d, &s, (enum kind)(i % (FAULT + 1)), list);
        write_samples(block, BLOCK_BYTES, 0, list, BLOCK_NUMBERS);
        fwrite(block, 1, BLOCK_BYTES, stdout);
    }
    return 0;
}

int main(int argc, char **argv)
{
    static struct load load;
    struct turns light = {0}, fault = {0};
    int right = 1;

    if (argc == 4 && strcmp(argv[1], "ours") == 0)
        return alone(tdp_measure, argv[2], argv[3]);
    if (argc == 4 && strcmp(argv[1], "second") == 0)
        return alone(measure_block, argv[2], argv[3]);
    if (argc == 5 && strcmp(argv[1], "stream") == 0)
        return stream(argv[2], argv[3], argv[4]);
    if (argc != 1) {
        fputs("usage: speed [ours|second E count | stream E X count]\n", stderr);
        return 2;
    }
    for (uint8_t ends = 2; ends <= MAX_ENDS; ends++) {
        build(&load, ends);
        right &= same_answers(&load, ends) && compare(&load, ends);
        count_turns(&load, LIGHT, &light);
        count_turns(&load, FAULT, &fault);
    }
    tell_turns("light load", &light);
    tell_turns("fault", &fault);
    return !right;
}
