/* Windows for comparing matched numbers and measuring: `vectors input` writes
 * a setting block and a block of twelve sets for each, `vectors expect` how
 * writing them back goes and the numbers that belong to them. */
#include "draw.h"

#include <stdio.h>
#include <string.h>

#define VECTORS 600
#define HELD 60             /* windows behind them, for common blocking */
#define KINDS 15
#define RETRIES 40
#define HELD_RETRIES 2000
#define FILLED 7

/* A setting and the twelve sets of its window. */
struct vector {
    struct setting setting;
    int16_t list[WINDOW_NUMBERS];
};

/* Window of a wave up to a level, with the harmonics asked for. */
static void wave_window(struct draw *d, struct vector *v, int64_t level,
                        unsigned harmonics)
{
    struct wave wave;

    draw_wave(d, &v->setting, draw_spread(d, 50, level), harmonics, &wave);
    for (size_t k = 0; k < WINDOW_SETS; k++)
        wave_set(&wave, &v->setting, k, v->list + 12 * k);
}

/* Adds noise up to a size to every sample of the used ends. */
static void add_noise(struct draw *d, struct vector *v, int64_t size)
{
    for (size_t i = 0; i < WINDOW_NUMBERS; i++)
        if (i % 12 < 3u * v->setting.ends)
            v->list[i] = clip_sample(v->list[i] + draw_from(d, -size, size));
}

/* Square waves of random size and place. */
static void square_window(struct draw *d, struct vector *v)
{
    for (size_t i = 0; i < 3u * v->setting.ends; i++) {
        int64_t top = draw_spread(d, 0, SAMPLE_LIMIT);
        size_t shift = (size_t)draw_from(d, 0, 11);

        for (size_t k = 0; k < WINDOW_SETS; k++)
            v->list[12 * k + i] = (int16_t)((k + shift) % 12 < 6 ? top : -top);
    }
}

/* Each sample for itself, over the whole range or near a random one. */
static void random_window(struct draw *d, struct vector *v)
{
    int64_t top = draw_chance(d, 50) ? SAMPLE_LIMIT : draw_spread(d, 1, SAMPLE_LIMIT);

    add_noise(d, v, top);
}

/* Samples at the limits, zero, one, and from set to set the other way. */
static void edge_window(struct draw *d, struct vector *v)
{
    static const int16_t edge[6] = {32000, -32000, 0, 1, -1, 31999};
    int64_t kind = draw_from(d, 0, 3), flip = draw_from(d, 1, 6);

    for (size_t i = 0; i < WINDOW_NUMBERS; i++) {
        size_t k = i / 12;

        if (i % 12 >= 3u * v->setting.ends)
            continue;
        if (kind == 0)
            v->list[i] = edge[draw_from(d, 0, 5)];
        else if (kind == 1)
            v->list[i] = k / (size_t)flip % 2 ? -32000 : 32000;
        else if (kind == 2)
            v->list[i] = (k + i % 12) / (size_t)flip % 2 ? -32000 : 32000;
        else
            v->list[i] = draw_chance(d, 4) ? edge[draw_from(d, 0, 5)] : 0;
    }
}

/* Factors and samples that often lead to halves: of matched numbers, and of c
 * and s, as only every third set has samples other than zero. */
static void halves_window(struct draw *d, struct vector *v)
{
    int64_t top = draw_spread(d, 4, SAMPLE_LIMIT);

    draw_eighths(d, &v->setting);
    for (size_t i = 0; i < WINDOW_NUMBERS; i++)
        if (i / 12 % 3 == 0 && i % 12 < 3u * v->setting.ends)
            v->list[i] = (int16_t)draw_from(d, -top, top);
}

/* Through current of a healthy bank, with a fault on top of it or not. */
static void through_window(struct draw *d, struct vector *v)
{
    struct wave fault;
    struct bank bank;
    int with = draw_chance(d, 50);

    draw_bank(d, &v->setting, &bank);
    draw_wave(d, &v->setting, draw_spread(d, 50, 8000),
              (unsigned)draw_from(d, 0, 3), &fault);
    for (size_t k = 0; k < WINDOW_SETS; k++) {
        int16_t list[SET_NUMBERS], *at = v->list + 12 * k;

        healthy_set(d, &v->setting, &bank, k, at);
        wave_set(&fault, &v->setting, k, list);
        for (size_t i = 0; with && i < 3u * v->setting.ends; i++)
            at[i] = clip_sample((int64_t)at[i] + list[i]);
    }
}

/* Matched numbers of the whole window. */
static void match_window(const struct vector *v, int32_t values[WINDOW_NUMBERS])
{
    for (size_t k = 0; k < WINDOW_SETS; k++)
        match_set(&v->setting, v->list + 12 * k, values + 12 * k);
}

/* Measures a window with its setting. */
static void measure(const struct vector *v, struct measured m[SYSTEMS])
{
    measure_list(&v->setting, v->list, m);
}

/* How far a system is above its characteristic, in 200ths. */
static int64_t margin(const struct setting *s, int64_t d, int64_t r)
{
    int64_t p = s->pick_up, knee = 2 * (int64_t)s->third_section;

    if (r <= p)
        return 200 * (d - p);
    if (r <= knee)
        return 200 * (d - p) - s->slope1 * (r - p);
    return 200 * (d - p) - s->slope1 * (knee - p) - s->slope2 * (r - knee);
}

/* Threshold P that puts a system's limit near its D, or 0 for none. */
static uint16_t near_pick_up(struct draw *d, const struct setting *s,
                             const struct measured *m)
{
    int64_t r = m->twice_restraint, knee = 2 * (int64_t)s->third_section;
    int64_t top = 200 * (int64_t)m->differential, p;

    if (r > knee)
        top -= s->slope1 * knee + s->slope2 * (r - knee);
    else
        top -= s->slope1 * r;
    p = top / (200 - s->slope1) + draw_from(d, -1, 1);
    if (draw_chance(d, 10))
        p = m->differential + draw_from(d, -1, 0);
    return (uint16_t)(p < 100 || p > 2500 ? 0 : p);
}

/* Sets P, m1, m2, Q so that a system is at its limit or just past it, in the
 * third section if so asked; returns how far off it still is, in 200ths. */
static int64_t aim_characteristic(struct draw *d, struct vector *v, int past,
                                  int third)
{
    struct setting trial = v->setting;
    struct measured m[SYSTEMS];
    int64_t best = INT64_MAX;
    size_t y = (size_t)draw_from(d, 0, 2);

    measure(v, m);
    for (int i = 0; i < 1500 && best != 0; i++) {
        int64_t over;

        trial.slope1 = (uint16_t)draw_from(d, 10, 150);
        trial.slope2 = (uint16_t)draw_from(d, trial.slope1, 150);
        trial.third_section = (uint16_t)draw_from(d, 1500, 10000);
        trial.pick_up = near_pick_up(d, &trial, &m[y]);
        if (trial.pick_up == 0)
            continue;
        if (third && m[y].twice_restraint <= 2 * trial.third_section)
            continue;
        over = margin(&trial, m[y].differential, m[y].twice_restraint);
        over = past ? over - 1 : -over;
        if (over < 0 || over >= best)
            continue;
        best = over;
        v->setting = trial;
    }
    return best;
}

/* Draws windows until one lies at its limit, or just past it. */
static void limit_window(struct draw *d, struct vector *v)
{
    int past = draw_chance(d, 50), through = draw_chance(d, 60);
    int third = through && draw_chance(d, 50);

    for (int i = 0; i < RETRIES; i++) {
        memset(v->list, 0, sizeof v->list);
        if (through)
            through_window(d, v);
        else
            wave_window(d, v, 6000, 1);
        if (aim_characteristic(d, v, past, third) <= past)
            return;
    }
}

/* The percentage that part is of whole, or the next, within its range. */
static uint16_t percent_near(struct draw *d, int64_t part, int64_t whole,
                             int64_t high)
{
    int64_t p = whole == 0 ? high : 100 * part / whole + draw_from(d, 0, 1);

    return (uint16_t)(p < 10 ? 10 : p > high ? high : p);
}

/* Sets the harmonic percentages next to what a system shows; whether one is
 * met exactly. */
static int aim_harmonics(struct draw *d, struct vector *v)
{
    struct measured m[SYSTEMS];
    const struct measured *one = &m[draw_from(d, 0, 2)];

    measure(v, m);
    v->setting.second = percent_near(d, one->second, one->differential, 50);
    v->setting.fifth = percent_near(d, one->fifth, one->differential, 80);
    if (one->differential == 0)
        return 0;
    return 100 * one->second == v->setting.second * one->differential ||
           100 * one->fifth == v->setting.fifth * one->differential;
}

/* Draws small windows until a harmonic is just at its percentage. */
static void harmonic_window(struct draw *d, struct vector *v)
{
    int tries = RETRIES;

    do {
        memset(v->list, 0, sizeof v->list);
        wave_window(d, v, 900, 3);
    } while (!aim_harmonics(d, v) && --tries != 0);
}

/* Setting number i: all ends, flags, groups and filters in turn. */
static void draw_turn(struct draw *d, size_t i, struct setting *s)
{
    size_t turn = i / 3;

    draw_setting(d, (uint8_t)(2 + i % 3), s);
    s->flags = (uint8_t)((turn + turn / 8) % 8);
    for (size_t z = 0; z < s->ends; z++) {
        if (z != 0)
            s->end[z].group = (uint8_t)((turn + 5 * z) % 12);
        s->end[z].filter = (uint8_t)(turn / 12 >> z & 1);
    }
}

/* Window number i with its setting. */
static void build(struct draw *d, size_t i, struct vector *v)
{
    unsigned kind = (unsigned)draw_from(d, 0, KINDS - 1);

    memset(v, 0, sizeof *v);
    draw_turn(d, i, &v->setting);
    switch (kind) {
    case 0: wave_window(d, v, 40000, 0); break;
    case 1: square_window(d, v); break;
    case 2: wave_window(d, v, 40000, 1); break;
    case 3: wave_window(d, v, 40000, 2); break;
    case 4: wave_window(d, v, 40000, 3); add_noise(d, v, 300); break;
    case 5: random_window(d, v); break;
    case 6: edge_window(d, v); break;
    case 7: through_window(d, v); break;
    case 8: wave_window(d, v, 40000, 3); aim_harmonics(d, v); break;
    case 9: case 10: harmonic_window(d, v); break;
    case 11: halves_window(d, v); break;
    default: limit_window(d, v); break;
    }
}

/* ---- Common blocking ---- */

/* Whether only system y can hold back another one that starts: y has harmonics, the
 * other has none, and none but y has harmonics and D above P. Common blocking is
 * still off, so that each is blocked by its own harmonics. */
static int decides(const struct vector *v, size_t y)
{
    struct measured m[SYSTEMS];
    int another = 0;

    measure(v, m);
    for (size_t other = 0; other < SYSTEMS; other++) {
        if (other == y)
            continue;
        if (m[other].blocked && m[other].differential > v->setting.pick_up)
            return 0;
        another |= m[other].start && !m[other].blocked;
    }
    return m[y].blocked && another;
}

/* Waves with harmonics until one system decides, its D so much above P. */
static void holder_window(struct draw *d, struct vector *v, size_t y, int64_t above)
{
    for (int i = 0; i < HELD_RETRIES; i++) {
        memset(v->list, 0, sizeof v->list);
        wave_window(d, v, 6000, 3);
        if (aim_pick_up(v->list, y, above, &v->setting) && decides(v, y))
            return;
    }
}

/* Waves without harmonics, until a system that is unloaded decides: of groups 0
 * without filter, and with factor 1 at end 0. */
static void unloaded_window(struct draw *d, struct vector *v, size_t y)
{
    draw_eighths(d, &v->setting);
    v->setting.end[0].current = 1000;
    v->setting.flags |= BLOCK_ON_SECOND;
    for (size_t z = 0; z < v->setting.ends; z++)
        v->setting.end[z].group = v->setting.end[z].filter = 0;
    for (int tries = 0; tries < HELD_RETRIES; tries++) {
        memset(v->list, 0, sizeof v->list);
        wave_window(d, v, 40000, 0);
        for (size_t i = y; i < WINDOW_NUMBERS; i += SYSTEMS)
            v->list[i] = i % 12 == y ? unloaded_sample(i / 12) : 0;
        if (decides(v, y))
            return;
    }
}

/* Window number i for common blocking (02, card 4), off in one of ten: a system with
 * harmonics, D one below P, P, one above it, or 0. */
static void build_held(struct draw *d, size_t i, struct vector *v)
{
    static const uint8_t harmonics[3] = {BLOCK_ON_SECOND, BLOCK_ON_FIFTH,
                                         BLOCK_ON_SECOND | BLOCK_ON_FIFTH};
    size_t y = (size_t)draw_from(d, 0, 2), kind = i / 3 % 4;

    memset(v, 0, sizeof *v);
    draw_turn(d, i, &v->setting);
    v->setting.flags = harmonics[i / 12 % 3];
    if (kind < 3)
        holder_window(d, v, y, (int64_t)kind - 1);
    else
        unloaded_window(d, v, y);
    if (i % 10 != 9)
        v->setting.flags |= COMMON_BLOCKING;
}

/* Both blocks of a window; 0 when one cannot be written. */
static int put_input(const struct vector *v)
{
    uint8_t block[2 * BLOCK_BYTES];
    size_t offset;

    if (write_setting(&v->setting, block, BLOCK_BYTES, &offset) != ACCEPTED)
        return 0;
    if (write_samples(block, sizeof block, 1, v->list, WINDOW_NUMBERS) != ACCEPTED)
        return 0;
    return fwrite(block, 1, sizeof block, stdout) == sizeof block;
}

/* Whether so many bytes are as they were filled. */
static int kept(const uint8_t *bytes, size_t count)
{
    for (size_t i = 0; i < count; i++)
        if (bytes[i] != FILLED)
            return 0;
    return 1;
}

/* The setting block, written to a buffer with three bytes to spare and to one
 * that is a byte short. */
static void put_setting(const struct vector *v)
{
    uint8_t block[BLOCK_BYTES], longer[BLOCK_BYTES + 3], shorter[BLOCK_BYTES - 1];
    unsigned done, declined;
    size_t offset;

    lay_setting(&v->setting, block);
    memset(longer, FILLED, sizeof longer);
    memset(shorter, FILLED, sizeof shorter);
    done = write_setting(&v->setting, longer, sizeof longer, &offset);
    declined = write_setting(&v->setting, shorter, sizeof shorter, &offset);
    printf("w %u %d %d %u\n", done, memcmp(longer, block, BLOCK_BYTES) == 0,
           kept(longer + BLOCK_BYTES, 3), declined);
}

/* The sample block, written as block 1 of a record of three, and as block 3;
 * and thirteen numbers, which are no whole sets. */
static void put_samples(const struct vector *v)
{
    uint8_t block[BLOCK_BYTES], lent[3 * BLOCK_BYTES];
    unsigned done, past, odd;

    write_samples(block, sizeof block, 0, v->list, WINDOW_NUMBERS);
    memset(lent, FILLED, sizeof lent);
    past = write_samples(lent, sizeof lent, 3, v->list, WINDOW_NUMBERS);
    odd = write_samples(lent, sizeof lent, 1, v->list, 13);
    done = write_samples(lent, sizeof lent, 1, v->list, WINDOW_NUMBERS);
    printf("w %u %d %d %d %u %u\n", done,
           memcmp(lent + BLOCK_BYTES, block, BLOCK_BYTES) == 0,
           kept(lent, BLOCK_BYTES), kept(lent + 2 * BLOCK_BYTES, BLOCK_BYTES),
           past, odd);
}

/* A line for each block written, twelve of matched numbers, three of measured
 * systems. */
static int put_expected(const struct vector *v)
{
    int32_t values[WINDOW_NUMBERS];
    struct measured m[SYSTEMS];

    put_setting(v);
    put_samples(v);
    match_window(v, values);
    measure_window(&v->setting, values, m);
    for (size_t i = 0; i < WINDOW_NUMBERS; i++)
        printf("%s %d%s", i % 12 == 0 ? "v" : "", values[i], i % 12 == 11 ? "\n" : "");
    for (size_t y = 0; y < SYSTEMS; y++)
        printf("m %d %d %d %d %d %d\n", m[y].differential, m[y].twice_restraint,
               m[y].second, m[y].fifth, m[y].start, m[y].blocked);
    return 1;
}

int main(int argc, char **argv)
{
    static struct vector v;
    struct draw d = {0x7EC7025};
    int input = argc == 2 && strcmp(argv[1], "input") == 0;

    if (!input && (argc != 2 || strcmp(argv[1], "expect") != 0)) {
        fputs("usage: vectors input|expect\n", stderr);
        return 2;
    }
    for (size_t i = 0; i < VECTORS + HELD; i++) {
        if (i < VECTORS)
            build(&d, i, &v);
        else
            build_held(&d, i - VECTORS, &v);
        if (!(input ? put_input(&v) : put_expected(&v)))
            return 1;
    }
    return fflush(stdout) != 0;
}
