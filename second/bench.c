/* What the bench program is run on and what it must print: `bench CASE input`
 * and `bench CASE expect`; `bench cases` lists the cases. Case one is the
 * example of the specification, two a heavy fault beyond the bank and then one
 * inside it; others end with each refusal that the program can meet. A case
 * that is a number is a stream drawn by it; `bench drawn` tells how they end. */
#include "draw.h"

#include <math.h>
#include <stdio.h>
#include <stdlib.h>
#include <string.h>

#define MOST_SETS (2 * BLOCK_SETS)
#define MOST_BLOCKS 64
#define DRAWN 250           /* streams, */
#define FALLING_FROM 200    /* and those with slopes that fall */

/* What the program reads. */
struct stream {
    uint8_t bytes[MOST_BLOCKS * BLOCK_BYTES];
    size_t length;
};

/* The next block of a stream, all zero. */
static uint8_t *next_block(struct stream *x)
{
    uint8_t *block = x->bytes + x->length;

    memset(block, 0, BLOCK_BYTES);
    x->length += BLOCK_BYTES;
    return block;
}

/* A sample block of so many sets. */
static uint8_t *add_sets(struct stream *x, const int16_t *list, size_t sets)
{
    uint8_t *block = next_block(x);

    write_samples(block, BLOCK_BYTES, 0, list, sets * SET_NUMBERS);
    return block;
}

/* ---- What is printed ---- */

/* The line of a refusal, which is the last. */
static enum refusal print_refused(FILE *to, enum refusal refusal)
{
    if (refusal != ACCEPTED)
        fprintf(to, "refused %d\n", refusal);
    return refusal;
}

/* A set's line: its number, F or M, D of each system, and the latches. */
static void print_set(FILE *to, size_t number, const struct answer *a,
                      const struct relay *relay)
{
    fprintf(to, "%zu %c", number, a->filling ? 'F' : 'M');
    for (size_t y = 0; y < SYSTEMS; y++)
        fprintf(to, " %d", a->filling ? 0 : a->system[y].differential);
    fprintf(to, " %d\n",
            relay->latches[0] + 2 * relay->latches[1] + 4 * relay->latches[2]);
}

/* The lines of one sample block; the sets are numbered on from before. */
static enum refusal run_block(FILE *to, struct relay *relay, const uint8_t *bytes,
                              size_t length, size_t *number)
{
    int16_t list[BLOCK_NUMBERS];
    size_t count = 0;
    struct answer a;
    enum refusal refusal = read_samples(bytes, length, list, &count);

    for (size_t i = 0; refusal == ACCEPTED && i < count; i += SET_NUMBERS) {
        refusal = relay_sample(relay, list + i, SET_NUMBERS, &a);
        if (refusal == ACCEPTED)
            print_set(to, ++*number, &a, relay);
    }
    return print_refused(to, refusal);
}

/* What the bench program prints of a stream, and the refusal that ends it. */
static enum refusal bench_run(FILE *to, const uint8_t *bytes, size_t length)
{
    size_t part = length < BLOCK_BYTES ? length : BLOCK_BYTES, number = 0, offset;
    struct setting s;
    struct relay relay;
    enum refusal refusal = read_setting(bytes, part, &s, &offset);

    if (refusal == ACCEPTED)
        refusal = relay_start(&s, &relay, &offset);
    if (refusal != ACCEPTED)
        return print_refused(to, refusal);
    fprintf(to, "set state D1 D2 D3 trip\n");
    for (size_t at = BLOCK_BYTES; refusal == ACCEPTED && at < length; at += part) {
        part = length - at < BLOCK_BYTES ? length - at : BLOCK_BYTES;
        refusal = run_block(to, &relay, bytes + at, part, &number);
    }
    return refusal;
}

/* ---- Stored examples ---- */

/* 40 MVA, 110 kV star and 20 kV delta, group 5, zero sequence out of the star
 * side, both blockings, three sets to confirm. */
static const struct setting bank = {
    .ends = 2, .flags = BLOCK_ON_SECOND | BLOCK_ON_FIFTH, .confirm = 3, .power = 400,
    .end = {{.voltage = 1100, .current = 300, .filter = 1},
            {.voltage = 200, .current = 1200, .group = 5}},
    .pick_up = 200, .high_set = 8000, .slope1 = 30, .slope2 = 70,
    .third_section = 4000, .second = 15, .fifth = 30,
};

/* Twelve sets, all zero but for 3,000 on phase A of end 0 in the last. */
static void one(struct stream *x, int wanted)
{
    int16_t list[WINDOW_NUMBERS] = {0};

    (void)wanted;
    list[11 * SET_NUMBERS] = 3000;
    lay_setting(&plain_setting, next_block(x));
    add_sets(x, list, WINDOW_SETS);
}

/* k of an end: a sample times it is in units of reference current. */
static double exact_factor(const struct setting *s, size_t z)
{
    return 1351.0 * s->end[z].voltage * s->end[z].current / (780.0 * 1000 * s->power);
}

/* Eight times reference current through the bank for 24 sets, and then into it
 * from end 0 alone. The currents of end 1 are those of group 5. */
static void two(struct stream *x, int wanted)
{
    const double third = 2 * acos(-1.0) / 3;
    static int16_t list[MOST_SETS * SET_NUMBERS];

    (void)wanted;
    for (size_t k = 0; k < MOST_SETS; k++)
        for (int y = 0; y < SYSTEMS; y++) {
            double own = 8000 * cos((double)k * third / 4 - y * third);
            double next = 8000 * cos((double)k * third / 4 - (y + 1) * third);
            int16_t *set = list + k * SET_NUMBERS;

            set[y] = (int16_t)lround(own / exact_factor(&bank, 0));
            if (k < 24)
                set[SYSTEMS + y] =
                    (int16_t)lround((own - next) * 1351 / 2340 / exact_factor(&bank, 1));
        }
    lay_setting(&bank, next_block(x));
    add_sets(x, list, BLOCK_SETS);
    add_sets(x, list + BLOCK_NUMBERS, BLOCK_SETS);
}

/* ---- Refusals and long runs ---- */

/* Sets of a heavy fault that none declines, from set number `from` on. */
static void fault_sets(size_t from, size_t sets, int16_t *list)
{
    struct wave wave = {.cosine = {{7000, -3000, 100}}, .sine = {{50, 2000, 900}}};

    for (size_t k = 0; k < sets; k++)
        wave_set(&wave, &plain_setting, from + k, list + SET_NUMBERS * k);
}

/* The plain setting and an accepted block of nine sets. */
static void add_start(struct stream *x)
{
    int16_t list[BLOCK_NUMBERS];

    fault_sets(0, 9, list);
    lay_setting(&plain_setting, next_block(x));
    add_sets(x, list, 9);
}

/* A further block of fifteen sets, set number 10 the first. */
static uint8_t *add_more(struct stream *x, int16_t *list)
{
    fault_sets(9, 15, list);
    return add_sets(x, list, 15);
}

/* A setting that is refused, with a sound sample block behind it. */
static void refused_setting(struct stream *x, int wanted)
{
    struct setting s = plain_setting;
    int16_t list[BLOCK_NUMBERS];
    uint8_t *block = next_block(x);

    s.ends = wanted == ENDS_WRONG ? 5 : 2;
    s.pick_up = wanted == FIELD_WRONG ? 99 : 200;
    if (wanted == FACTOR_TOO_HIGH)
        s.end[1].current = 16001;
    if (wanted == FACTOR_TOO_LOW)
        s.end[0].current = 499;
    lay_setting(&s, block);
    block[1] ^= wanted == MARK_WRONG;
    seal_block(block);
    block[510] ^= wanted == CHECK_WRONG;
    add_more(x, list);
    if (wanted == BLOCK_LENGTH)
        x->length = BLOCK_BYTES - 1;
}

/* A sample block that is refused after an accepted one, and a sound one. */
static void refused_samples(struct stream *x, int wanted)
{
    int16_t list[BLOCK_NUMBERS];
    uint8_t *block;

    add_start(x);
    block = add_more(x, list);
    block[0] ^= wanted == MARK_WRONG;
    block[1] = wanted == TOO_MANY_SETS ? 22 : block[1];
    block[4 + 24 * 15] = wanted == ZERO_BYTE_WRONG;
    seal_block(block);
    block[100] ^= wanted == CHECK_WRONG;
    add_more(x, list);
    if (wanted == BLOCK_LENGTH)
        x->length -= BLOCK_BYTES + 1;
}

/* Two accepted blocks, then one of 21 sets of which the one at a place is
 * refused by 10, or by 11, and a sound block. */
static void refused_set_at(struct stream *x, int wanted, size_t at)
{
    int16_t list[BLOCK_NUMBERS];

    add_start(x);
    add_more(x, list);
    fault_sets(24, BLOCK_SETS, list);
    if (wanted == SAMPLE_BEYOND)
        list[SET_NUMBERS * at + 4] = -32001;
    else
        list[SET_NUMBERS * at + 11] = 1;
    add_sets(x, list, BLOCK_SETS);
    add_more(x, list);
}

/* The refused set inside its block, as the first, and as the last. */
static void refused_set(struct stream *x, int wanted)
{
    refused_set_at(x, wanted, 12);
}

static void refused_first(struct stream *x, int wanted)
{
    refused_set_at(x, wanted, 0);
}

static void refused_last(struct stream *x, int wanted)
{
    refused_set_at(x, wanted, BLOCK_SETS - 1);
}

/* Blocks of no sets, between others and at the end. */
static void no_sets(struct stream *x, int wanted)
{
    int16_t list[BLOCK_NUMBERS] = {0};

    (void)wanted;
    add_start(x);
    add_sets(x, list, 0);
    add_sets(x, list, 0);
    add_more(x, list);
    add_sets(x, list, 0);
}

/* Full blocks, until set numbers have four digits. */
static void full_blocks(struct stream *x, int wanted)
{
    int16_t list[BLOCK_NUMBERS];

    (void)wanted;
    lay_setting(&plain_setting, next_block(x));
    for (size_t i = 0; i < 50; i++) {
        fault_sets(BLOCK_SETS * i, BLOCK_SETS, list);
        add_sets(x, list, BLOCK_SETS);
    }
}

/* The same with elements that trip by overcurrent, of which nothing is shown (02,
 * card 6). */
static void overcurrent(struct stream *x, int wanted)
{
    struct setting s = plain_setting;

    full_blocks(x, wanted);
    s.overcurrent = 200;
    s.curve = 2;
    lay_setting(&s, x->bytes);
}

/* The largest D: four ends of factor 16, and full samples that turn about
 * every six sets. */
static void largest(struct stream *x, int wanted)
{
    struct setting s = plain_setting;
    int16_t list[BLOCK_NUMBERS];

    (void)wanted;
    s.ends = MAX_ENDS;
    for (size_t z = 0; z < MAX_ENDS; z++)
        s.end[z] = (struct end){780, 16000, 0, 0};
    lay_setting(&s, next_block(x));
    for (size_t i = 0; i < 5; i++) {
        for (size_t k = 0; k < BLOCK_NUMBERS; k++)
            list[k] = (BLOCK_SETS * i + k / 12) / 6 % 2 ? SAMPLE_LIMIT : -SAMPLE_LIMIT;
        add_sets(x, list, BLOCK_SETS);
    }
}

/* An unloaded phase B of end 0, which under common blocking doesn't hold back a
 * fault on phase A from set 22 on (02, card 4). */
static void unloaded(struct stream *x, int wanted)
{
    const struct wave fault = {.cosine = {{3000}}};
    static int16_t list[MOST_SETS * SET_NUMBERS];
    struct setting s = plain_setting;

    (void)wanted;
    s.flags = BLOCK_ON_SECOND | COMMON_BLOCKING;
    s.confirm = 3;
    for (size_t k = 0; k < MOST_SETS; k++) {
        if (k >= BLOCK_SETS)
            wave_set(&fault, &s, k - BLOCK_SETS, list + k * SET_NUMBERS);
        list[k * SET_NUMBERS + 1] = unloaded_sample(k);
    }
    lay_setting(&s, next_block(x));
    add_sets(x, list, BLOCK_SETS);
    add_sets(x, list + BLOCK_NUMBERS, BLOCK_SETS);
}

/* A setting that is refused, and m2 one below m1 as well (02, card 7); a sound sample
 * block follows. */
static void falling(struct stream *x, int wanted)
{
    refused_setting(x, wanted);
    x->bytes[64] = (uint8_t)(x->bytes[66] + 1);
    seal_block(x->bytes);
}

/* Such slopes alone, and nothing behind them. */
static void falling_alone(struct stream *x, int wanted)
{
    falling(x, wanted);
    x->length = BLOCK_BYTES;
}

/* The same, and half a sample block. */
static void falling_half(struct stream *x, int wanted)
{
    falling(x, wanted);
    x->length -= BLOCK_BYTES / 2;
}

/* The same, and a sample block whose check is wrong. */
static void falling_check(struct stream *x, int wanted)
{
    falling(x, wanted);
    x->bytes[BLOCK_BYTES + 100] ^= 1;
}

/* The same, and a sample block of another mark and 22 sets, with a byte that must be
 * zero. */
static void falling_broken(struct stream *x, int wanted)
{
    uint8_t *block = x->bytes + BLOCK_BYTES;

    falling(x, wanted);
    block[0] = 0x43;
    block[1] = 22;
    block[2] = 1;
    seal_block(block);
}

/* The same, and a set that 10 declines. */
static void falling_set(struct stream *x, int wanted)
{
    falling(x, wanted);
    x->bytes[BLOCK_BYTES + 5] = 0x7F;
    seal_block(x->bytes + BLOCK_BYTES);
}

/* Slopes that are the same, which a relay starts on. */
static void same_slopes(struct stream *x, int wanted)
{
    int16_t list[BLOCK_NUMBERS];

    (void)wanted;
    add_start(x);
    add_more(x, list);
    x->bytes[64] = x->bytes[66];
    seal_block(x->bytes);
}

/* Nothing at all, or a setting alone. */
static void nothing(struct stream *x, int wanted)
{
    if (wanted == ACCEPTED)
        lay_setting(&plain_setting, next_block(x));
}

/* ---- Drawn streams ---- */

/* Damage to a block: a bit, its head, or any byte; the latter two sealed. */
static void damage(struct draw *d, uint8_t *block)
{
    int64_t kind = draw_from(d, 0, 2);

    if (kind == 0)
        block[draw_from(d, 0, 511)] ^= (uint8_t)(1u << draw_from(d, 0, 7));
    else if (kind == 1)
        block[draw_from(d, 0, 3)] ^= (uint8_t)draw_from(d, 1, 255);
    else
        block[draw_from(d, 4, 509)] ^= (uint8_t)draw_from(d, 1, 255);
    if (kind != 0)
        seal_block(block);
}

/* A setting block: three of four sound, in others the factors past a limit,
 * damage, or a field one past its range. Slopes fall where they are to. */
static void draw_setting_block(struct draw *d, int fall, struct setting *s,
                               uint8_t *block)
{
    const struct field *f = &FIELD[draw_from(d, 0, PLAIN_FIELDS - 1)];
    int64_t kind = draw_from(d, 0, 11);
    size_t offset;

    draw_setting(d, (uint8_t)draw_from(d, 2, 4), s);
    s->confirm = (uint8_t)draw_from(d, 1, 4);
    while (kind == 0 && setting_refusal(s, &offset) == ACCEPTED)
        draw_wide_setting(d, s);
    if (fall)
        draw_falling(d, s);
    lay_setting(s, block);
    if (kind == 1)
        damage(d, block);
    if (kind == 2) {
        put_field(block, f, draw_chance(d, 50) ? f->low - 1 : f->high + 1);
        seal_block(block);
    }
}

/* A sample block of a wave, now and then with a set that is declined. */
static void draw_sample_block(struct draw *d, const struct setting *s,
                              const struct wave *wave, size_t from, uint8_t *block)
{
    static const int16_t edge[6] = {32000, -32000, 32001, -32001, 1, -1};
    int16_t list[BLOCK_NUMBERS];
    size_t sets = (size_t)draw_from(d, 0, BLOCK_SETS);

    for (size_t k = 0; k < sets; k++)
        wave_set(wave, s, from + k, list + SET_NUMBERS * k);
    if (sets != 0 && draw_chance(d, 12))
        list[draw_from(d, 0, (int64_t)(SET_NUMBERS * sets) - 1)] =
            edge[draw_from(d, 0, 5)];
    write_samples(block, BLOCK_BYTES, 0, list, SET_NUMBERS * sets);
    if (draw_chance(d, 8))
        damage(d, block);
}

/* Stream number i: a setting block and up to eight sample blocks; two of five
 * end within a block. In the last ones slopes fall. */
static void drawn(struct stream *x, size_t i)
{
    struct draw d = {0xBE7C4 + 0x9E3779B97F4A7C15ULL * i};
    struct setting s;
    struct wave wave;
    int64_t blocks = draw_from(&d, 0, 8);

    draw_setting_block(&d, i >= FALLING_FROM, &s, next_block(x));
    for (int64_t k = 0; k < blocks; k++) {
        if (k % 2 == 0)
            draw_wave(&d, &s, draw_spread(&d, 400, 40000), 0, &wave);
        draw_sample_block(&d, &s, &wave, (size_t)(BLOCK_SETS * k), next_block(x));
    }
    if (draw_chance(&d, 40))
        x->length -= (size_t)draw_from(&d, 1, BLOCK_BYTES - 1);
}

/* Tells how the drawn streams end; whether each way is among them. */
static int tell_drawn(void)
{
    static struct stream x;
    static const uint8_t met[] = {1, 2, 3, 4, 5, 6, 7, 8, 9, 10, 11, 17};
    unsigned ends[SLOPES_FALL + 1] = {0};
    FILE *nowhere = fopen("/dev/null", "w");
    int all = nowhere != NULL;

    for (size_t i = 0; all && i < DRAWN; i++) {
        x.length = 0;
        drawn(&x, i);
        ends[bench_run(nowhere, x.bytes, x.length)]++;
    }
    if (nowhere != NULL)
        fclose(nowhere);
    printf("bench: %d streams drawn, not refused %u, refused", DRAWN, ends[0]);
    for (size_t i = 0; i < sizeof met; i++) {
        printf(" %u:%u", met[i], ends[met[i]]);
        all &= ends[met[i]] != 0;
    }
    printf("\n");
    return all;
}

/* ---- Cases ---- */

/* A case, and the refusal that ends it. */
static const struct {
    const char *name;
    void (*make)(struct stream *x, int wanted);
    int wanted;
} CASE[] = {
    {"one", one, 0},
    {"two", two, 0},
    {"nothing", nothing, 1},
    {"setting-alone", nothing, 0},
    {"setting-1", refused_setting, 1},
    {"setting-2", refused_setting, 2},
    {"setting-3", refused_setting, 3},
    {"setting-4", refused_setting, 4},
    {"setting-5", refused_setting, 5},
    {"setting-6", refused_setting, 6},
    {"setting-7", refused_setting, 7},
    {"samples-1", refused_samples, 1},
    {"samples-2", refused_samples, 2},
    {"samples-3", refused_samples, 3},
    {"samples-8", refused_samples, 8},
    {"samples-9", refused_samples, 9},
    {"set-10", refused_set, 10},
    {"set-11", refused_set, 11},
    {"first-set-10", refused_first, 10},
    {"last-set-11", refused_last, 11},
    {"no-sets", no_sets, 0},
    {"full-blocks", full_blocks, 0},
    {"overcurrent", overcurrent, 0},
    {"largest", largest, 0},
    {"unloaded", unloaded, 0},
    {"falling-1", falling, 1},
    {"falling-4", falling, 4},
    {"falling-5", falling, 5},
    {"falling-6", falling, 6},
    {"falling-7", falling, 7},
    {"falling-17", falling, 17},
    {"falling-alone", falling_alone, 17},
    {"falling-half", falling_half, 17},
    {"falling-check", falling_check, 17},
    {"falling-broken", falling_broken, 17},
    {"falling-set", falling_set, 17},
    {"same-slopes", same_slopes, 0},
};
#define CASES (sizeof CASE / sizeof CASE[0])

/* The names of all cases. */
static int list_cases(void)
{
    for (size_t i = 0; i < CASES; i++)
        printf("%s\n", CASE[i].name);
    for (size_t i = 0; i < DRAWN; i++)
        printf("%zu\n", i);
    return 0;
}

/* Makes a case; the refusal that must end it, or -1 where any may. */
static int make_case(const char *name, struct stream *x)
{
    for (size_t i = 0; i < CASES; i++)
        if (strcmp(name, CASE[i].name) == 0) {
            CASE[i].make(x, CASE[i].wanted);
            return CASE[i].wanted;
        }
    drawn(x, (size_t)strtoul(name, NULL, 10));
    return -1;
}

int main(int argc, char **argv)
{
    static struct stream x;
    int wanted, ended;

    if (argc == 2 && strcmp(argv[1], "cases") == 0)
        return list_cases();
    if (argc == 2 && strcmp(argv[1], "drawn") == 0)
        return !tell_drawn();
    if (argc != 3)
        return 2;
    wanted = make_case(argv[1], &x);
    if (strcmp(argv[2], "input") == 0)
        return fwrite(x.bytes, 1, x.length, stdout) != x.length;
    ended = (int)bench_run(stdout, x.bytes, x.length);
    return wanted >= 0 && ended != wanted;
}
