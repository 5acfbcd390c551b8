#include "draw.h"

#include <stdio.h>
#include <stdlib.h>
#include <string.h>

/* Multiplied xorshift of 64 bits; the state must not be zero. */
uint64_t draw_word(struct draw *d)
{
    d->state ^= d->state >> 12;
    d->state ^= d->state << 25;
    d->state ^= d->state >> 27;
    return d->state * 0x2545F4914F6CDD1DULL;
}

/* Even over low to high, both included. */
int64_t draw_from(struct draw *d, int64_t low, int64_t high)
{
    uint64_t span = (uint64_t)(high - low) + 1;

    return low + (int64_t)((draw_word(d) >> 11) % span);
}

/* Over low to high (low not below 0) with each size about as often; both
 * edges come up now and then. */
int64_t draw_spread(struct draw *d, int64_t low, int64_t high)
{
    int64_t span = high - low;
    unsigned bits = 0;

    if (draw_chance(d, 3))
        return draw_chance(d, 50) ? low : high;
    while (bits < 62 && span >> bits != 0)
        bits++;
    bits = (unsigned)draw_from(d, 0, bits);
    span = draw_from(d, 0, ((int64_t)1 << bits) - 1);
    return low + span > high ? high : low + span;
}

/* Yes in so many of a hundred draws. */
int draw_chance(struct draw *d, unsigned percent)
{
    return draw_from(d, 0, 99) < percent;
}

/* ---- Setting fields ---- */

const struct field FIELD[FIELDS] = {
    {4, 1, 2, 4},         {5, 1, 0, 7},         {6, 1, 1, 24},
    {8, 4, 1, 50000},     {12, 4, 1, 15000},    {16, 4, 1, 50000},
    {20, 1, 0, 0},        {21, 1, 0, 1},        {24, 4, 1, 15000},
    {28, 4, 1, 50000},    {32, 1, 0, 11},       {33, 1, 0, 1},
    {36, 4, 1, 15000},    {40, 4, 1, 50000},    {44, 1, 0, 11},
    {45, 1, 0, 1},        {48, 4, 1, 15000},    {52, 4, 1, 50000},
    {56, 1, 0, 11},       {57, 1, 0, 1},        {60, 2, 100, 2500},
    {62, 2, 2500, 30000}, {64, 2, 10, 150},     {66, 2, 10, 150},
    {68, 2, 1500, 10000}, {70, 2, 10, 50},      {72, 2, 10, 80},
    {74, 2, 200, 4000},   {76, 1, 0, 2}};

/* Puts a value into a field as far as its bytes hold it. */
void put_field(uint8_t *block, const struct field *field, uint32_t value)
{
    for (size_t i = 0; i < field->width; i++)
        block[field->at + i] = (uint8_t)(value >> (8 * i));
}

/* What a field holds. */
uint32_t get_field(const uint8_t *block, const struct field *field)
{
    uint32_t value = 0;

    for (size_t i = field->width; i > 0; i--)
        value = value << 8 | block[field->at + i - 1];
    return value;
}

/* ---- Settings ---- */

const struct setting plain_setting = {
    .ends = 2, .confirm = 1, .power = 1351,
    .end = {{.voltage = 780, .current = 1000}, {.voltage = 780, .current = 1000}},
    .pick_up = 200, .high_set = 8000, .slope1 = 30, .slope2 = 70,
    .third_section = 4000, .second = 20, .fifth = 35,
};

/* How far two numbers lie apart. */
static int64_t distance(int64_t a, int64_t b)
{
    return a < b ? b - a : a - b;
}

/* Voltage and current whose factor comes near the wanted one: of several
 * splits of their product the best. */
void aim_factor(struct draw *d, uint32_t power, int64_t factor, struct end *end)
{
    int64_t product = factor * 780000 * power / ((int64_t)FACTOR_ONE * 1351);
    int64_t low = product / 50000 + 1, high = product < 15000 ? product : 15000;
    struct setting trial = {.power = power};
    int64_t best = INT64_MAX;

    for (int i = 0; i < 40; i++) {
        int64_t v = high < low ? draw_from(d, 1, low < 15000 ? low : 15000)
                               : draw_spread(d, low, high);
        int64_t c = product / v + draw_from(d, 0, 1), off;

        trial.end[0].voltage = (uint32_t)v;
        trial.end[0].current = (uint32_t)(c < 1 ? 1 : c > 50000 ? 50000 : c);
        off = distance((int64_t)matching_factor(&trial, 0), factor);
        if (off < best) {
            best = off;
            end->voltage = trial.end[0].voltage;
            end->current = trial.end[0].current;
        }
    }
}

/* From a range, its edges more often. */
static uint16_t draw_limit(struct draw *d, int64_t low, int64_t high)
{
    if (draw_chance(d, 10))
        return (uint16_t)(draw_chance(d, 50) ? low : high);
    return (uint16_t)draw_from(d, low, high);
}

/* All fields but the ends, over their whole ranges. */
static void draw_thresholds(struct draw *d, struct setting *s)
{
    s->flags = (uint8_t)draw_from(d, 0, 7);
    s->confirm = (uint8_t)draw_limit(d, 1, 24);
    s->pick_up = draw_limit(d, 100, 2500);
    s->high_set = draw_limit(d, 2500, 30000);
    s->slope1 = draw_limit(d, 10, 150);
    s->slope2 = draw_limit(d, 10, 150);
    s->third_section = draw_limit(d, 1500, 10000);
    s->second = draw_limit(d, 10, 50);
    s->fifth = draw_limit(d, 10, 80);
}

/* A factor from low to 16: both edges, near 1, or anywhere. */
static int64_t draw_factor(struct draw *d, int64_t low)
{
    if (draw_chance(d, 15))
        return FACTOR_HIGHEST;
    if (draw_chance(d, 15))
        return low;
    if (draw_chance(d, 30))
        return draw_from(d, 50000, 90000);
    return draw_spread(d, low, FACTOR_HIGHEST);
}

/* Powers and ends whose 65,536 k lies halfway between whole numbers: with S
 * 4096 c, V 375 a, I 65 c b it is 1351 a b / 2, and a, b are odd. */
static void draw_halfway(struct draw *d, struct setting *s)
{
    int64_t c = draw_from(d, 1, 12);

    s->power = (uint32_t)(4096 * c);
    for (size_t z = 0; z < s->ends; z++) {
        int64_t a = 2 * draw_from(d, 0, 19) + 1;
        int64_t most = 1552 / a < 50000 / (65 * c) ? 1552 / a : 50000 / (65 * c);
        int64_t b = 2 * draw_from(d, 24 / a, (most - 1) / 2) + 1;

        s->end[z].voltage = (uint32_t)(375 * a);
        s->end[z].current = (uint32_t)(65 * c * b);
    }
}

/* A setting that is read, with any slopes. Of three or four ends, all but two may
 * have any factor down to zero. */
void draw_any_setting(struct draw *d, uint8_t ends, struct setting *s)
{
    size_t offset;

    do {
        size_t first = (size_t)draw_from(d, 0, ends - 1);
        size_t other = (first + (size_t)draw_from(d, 1, ends - 1)) % ends;

        memset(s, 0, sizeof *s);
        s->ends = ends;
        s->power = (uint32_t)draw_spread(d, 1, 50000);
        draw_thresholds(d, s);
        for (size_t z = 0; z < ends; z++) {
            int64_t low = z == first || z == other ? FACTOR_SECOND_LOWEST : 0;

            aim_factor(d, s->power, draw_factor(d, low), &s->end[z]);
            s->end[z].group = (uint8_t)(z == 0 ? 0 : draw_from(d, 0, 11));
            s->end[z].filter = (uint8_t)draw_from(d, 0, 1);
        }
        if (draw_chance(d, 6))
            draw_halfway(d, s);
    } while (setting_refusal(s, &offset) != ACCEPTED);
}

/* A setting that a relay starts on: slopes that fall change places, or one of three
 * times both become the lower. That draws no word more. */
void draw_setting(struct draw *d, uint8_t ends, struct setting *s)
{
    uint16_t m1, m2;

    draw_any_setting(d, ends, s);
    m1 = s->slope1;
    m2 = s->slope2;
    if (m2 >= m1)
        return;
    s->slope1 = m2;
    s->slope2 = (m1 + m2) % 3 == 0 ? m2 : m1;
}

/* Every field in its range, any slopes, factors to either side of both limits. */
void draw_wide_setting(struct draw *d, struct setting *s)
{
    memset(s, 0, sizeof *s);
    s->ends = (uint8_t)draw_from(d, 2, 4);
    s->power = (uint32_t)(draw_chance(d, 50) ? draw_from(d, 1, 50000)
                                             : draw_spread(d, 1, 50000));
    draw_thresholds(d, s);
    for (size_t z = 0; z < s->ends; z++) {
        int64_t factor = draw_chance(d, 40)   ? draw_from(d, 25000, 90000)
                         : draw_chance(d, 70) ? draw_from(d, 90000, 1080000)
                                              : draw_spread(d, 0, 2000000);

        aim_factor(d, s->power, factor, &s->end[z]);
        s->end[z].group = (uint8_t)(z == 0 ? 0 : draw_from(d, 0, 11));
        s->end[z].filter = (uint8_t)draw_from(d, 0, 1);
    }
}

/* Factors of whole eighths, 0.5 to 4: many a sample then lies halfway between
 * two matched numbers. */
void draw_eighths(struct draw *d, struct setting *s)
{
    s->power = 1351;
    for (size_t z = 0; z < s->ends; z++) {
        s->end[z].voltage = 780;
        s->end[z].current = (uint32_t)(125 * draw_from(d, 4, 32));
    }
}

/* A curve, and X as it goes with it, mostly low; drawn settings have none. */
void draw_overcurrent(struct draw *d, uint8_t curve, struct setting *s)
{
    s->curve = curve;
    s->overcurrent = 0;
    if (curve != 0)
        s->overcurrent = draw_limit(d, 200, draw_chance(d, 70) ? 800 : 4000);
}

/* Slopes that fall (02, card 7): m2 one below m1, or anywhere below. */
void draw_falling(struct draw *d, struct setting *s)
{
    s->slope1 = draw_limit(d, 11, 150);
    s->slope2 = (uint16_t)(s->slope1 - 1);
    if (draw_chance(d, 60))
        s->slope2 = draw_limit(d, 10, s->slope2);
}

/* ---- Matching ---- */

/* Own phase, next and before in T(g), by g; of odd g times 780/1351. */
static const int8_t TURN[12][3] = {
    {1, 0, 0},  {1, -1, 0}, {0, -1, 0}, {0, -1, 1}, {0, 0, 1},  {-1, 0, 1},
    {-1, 0, 0}, {-1, 1, 0}, {0, 1, 0},  {0, 1, -1}, {0, 0, -1}, {1, 0, -1}};

/* What own phase (0), next or before weighs when an end is matched, in 4053ths. */
int64_t phase_weight(const struct end *e, size_t j)
{
    const int8_t *t = TURN[e->group];

    if (e->group % 2 == 1)
        return 2340 * t[j] + (e->filter ? 0 : 1351);
    return 4053 * t[j] - (e->filter ? 1351 * (t[0] + t[1] + t[2]) : 0);
}

/* ---- Waves ---- */

/* One cycle of a cosine in twelve steps, in 1/1560. */
static int64_t cycle(size_t k)
{
    static const int64_t quarter[4] = {1560, 1351, 780, 0};

    k %= 12;
    if (k > 6)
        k = 12 - k;
    return k <= 3 ? quarter[k] : -quarter[6 - k];
}

/* A sample held within what a relay accepts. */
int16_t clip_sample(int64_t sample)
{
    if (sample > SAMPLE_LIMIT)
        return SAMPLE_LIMIT;
    return (int16_t)(sample < -SAMPLE_LIMIT ? -SAMPLE_LIMIT : sample);
}

/* Makes a set one that a relay declines: by size, by an unused end, or both. */
void spoil_set(struct draw *d, const struct setting *s, int16_t list[SET_NUMBERS])
{
    static const int16_t beyond[4] = {32001, -32001, 32767, -32768};
    int64_t kind = draw_from(d, 0, 2);
    size_t unused = 3u * s->ends;

    if (s->ends == MAX_ENDS || kind != 0)
        list[draw_from(d, 0, 11)] = beyond[draw_from(d, 0, 3)];
    if (s->ends < MAX_ENDS && kind != 1)
        list[draw_from(d, (int64_t)unused, 11)] |= (int16_t)draw_spread(d, 1, 999);
}

/* Negates every sample, as with all leads reversed. -32,768 becomes 32,767,
 * which is declined like it. */
void turn_samples(int16_t *list, size_t n)
{
    for (size_t i = 0; i < n; i++)
        list[i] = (int16_t)(list[i] == INT16_MIN ? INT16_MAX : -list[i]);
}

/* Samples that a current of the given level at reference becomes at an end. */
static int64_t level_samples(const struct setting *s, size_t z, int64_t level)
{
    int64_t factor = (int64_t)matching_factor(s, z);

    return factor == 0 ? level : level * FACTOR_ONE / factor;
}

/* Currents around a level at random angles; bits 0 and 1 of harmonics put
 * second and fifth on top. Some phases and ends carry none. */
void draw_wave(struct draw *d, const struct setting *s, int64_t level,
               unsigned harmonics, struct wave *wave)
{
    int ends = (int)draw_from(d, 1, 15), phases = (int)draw_from(d, 1, 7);

    memset(wave, 0, sizeof *wave);
    for (size_t i = 0; i < 3u * s->ends; i++) {
        int64_t top = level_samples(s, i / 3, level);

        if (i >= 3 && !(ends >> i / 3 & 1))
            continue;
        if (!(phases >> i % 3 & 1))
            continue;
        for (unsigned h = 0; h < 3; h++) {
            int64_t part = h == 0 ? top : draw_from(d, 0, 60) * top / 100;

            if (h > 0 && !(harmonics >> (h - 1) & 1))
                continue;
            if (part > 2 * SAMPLE_LIMIT)
                part = 2 * SAMPLE_LIMIT;
            wave->cosine[h][i] = (int32_t)draw_from(d, -part, part);
            wave->sine[h][i] = (int32_t)draw_from(d, -part, part);
        }
    }
}

/* The wave at set k, clipped to what a relay accepts. */
void wave_set(const struct wave *wave, const struct setting *s, size_t k,
              int16_t list[SET_NUMBERS])
{
    static const size_t harmonic[3] = {1, 2, 5};

    memset(list, 0, SET_NUMBERS * sizeof list[0]);
    for (size_t i = 0; i < 3u * s->ends; i++) {
        int64_t sum = 0;

        for (size_t h = 0; h < 3; h++) {
            sum += wave->cosine[h][i] * cycle(harmonic[h] * k);
            sum += wave->sine[h][i] * cycle(harmonic[h] * k + 9);
        }
        list[i] = clip_sample(sum / 1560);
    }
}

/* Measures twelve sets. */
void measure_list(const struct setting *s, const int16_t list[WINDOW_NUMBERS],
                  struct measured m[SYSTEMS])
{
    int32_t values[WINDOW_NUMBERS];

    for (size_t k = 0; k < WINDOW_SETS; k++)
        match_set(s, list + 12 * k, values + 12 * k);
    measure_window(s, values, m);
}

/* Puts the high-set just at a system's D over twelve sets, or one below. */
int aim_high_set(struct draw *d, const int16_t list[WINDOW_NUMBERS],
                 struct setting *s)
{
    struct measured m[SYSTEMS];
    int64_t h;

    measure_list(s, list, m);
    h = m[draw_from(d, 0, 2)].differential - draw_from(d, 0, 1);
    if (h < 2500 || h > 30000)
        return 0;
    s->high_set = (uint16_t)h;
    return 1;
}

/* Puts P where the D of system y over twelve sets lies so much above it. */
int aim_pick_up(const int16_t list[WINDOW_NUMBERS], size_t y, int64_t above,
                struct setting *s)
{
    struct measured m[SYSTEMS];
    int64_t p;

    measure_list(s, list, m);
    p = m[y].differential - above;
    if (p < 100 || p > 2500)
        return 0;
    s->pick_up = (uint16_t)p;
    return 1;
}

/* An unloaded phase at set k: 1, 0, 0, -1, 0, 0 and so on. At a factor of 1 it has
 * D 0 and H2 1. */
int16_t unloaded_sample(size_t k)
{
    return (int16_t)(k % 6 == 0 ? 1 : k % 6 == 3 ? -1 : 0);
}

/* ---- A healthy bank ---- */

/* Lowest settings, at which a healthy bank would start soonest. */
void most_sensitive(struct setting *s)
{
    s->confirm = 1;
    s->pick_up = 100;
    s->high_set = 2500;
    s->slope1 = s->slope2 = 10;
    s->third_section = 1500;
    s->flags = 0;
}

/* Thousandths of reference that 32,000 samples are at an end. */
static int64_t end_reach(const struct setting *s, size_t z)
{
    const struct end *e = &s->end[z];

    return (int64_t)e->voltage * e->current * 1351 * SAMPLE_LIMIT /
           ((int64_t)780 * s->power);
}

/* Limb currents up to a part of each end's reach; the end of the largest
 * factor takes what the others leave. */
void draw_bank(struct draw *d, const struct setting *s, struct bank *bank)
{
    memset(bank, 0, sizeof *bank);
    bank->shape = (unsigned)draw_from(d, 0, 3);
    for (size_t z = 1; z < s->ends; z++)
        if (matching_factor(s, z) > matching_factor(s, bank->balance))
            bank->balance = z;
    for (size_t z = 0; z < s->ends; z++) {
        int64_t reach = end_reach(s, z) * draw_from(d, 0, 100) / 100;

        if (draw_chance(d, 20))
            reach = reach < 2000000 ? reach : 2000000;
        for (int limb = 0; limb < 2; limb++) {
            bank->cosine[z][limb] = draw_from(d, -reach, reach) / 2;
            bank->sine[z][limb] = draw_from(d, -reach, reach) / 2;
        }
        if (s->end[z].filter)
            bank->zero_sequence[z] = draw_spread(d, 0, 24000000);
    }
}

/* How many ends have their filter off. */
size_t unfiltered_ends(const struct setting *s)
{
    size_t n = 0;

    for (size_t z = 0; z < s->ends; z++)
        n += s->end[z].filter == 0;
    return n;
}

/* The end of the largest factor among those with the filter off. */
static size_t widest_unfiltered(const struct setting *s)
{
    size_t widest = MAX_ENDS;

    for (size_t z = 0; z < s->ends; z++)
        if (!s->end[z].filter &&
            (widest == MAX_ENDS ||
             matching_factor(s, z) > matching_factor(s, widest)))
            widest = z;
    return widest;
}

/* Neutral current at one end, up to a part of its reach: the same on all limbs, all
 * on one of them, or split in any way. */
static void draw_end_neutral(struct draw *d, const struct setting *s, size_t z,
                             struct bank *bank)
{
    int64_t reach = end_reach(s, z) * draw_from(d, 1, 100) / 100;
    int64_t split = draw_from(d, 0, 2), one = draw_from(d, 0, 2);

    if (draw_chance(d, 20))
        reach = reach < 2000000 ? reach : 2000000;
    for (int limb = 0; limb < 3; limb++) {
        bank->neutral_cosine[z][limb] = draw_from(d, -reach, reach);
        bank->neutral_sine[z][limb] = draw_from(d, -reach, reach);
        if (split == 0) {
            bank->neutral_cosine[z][limb] = bank->neutral_cosine[z][0];
            bank->neutral_sine[z][limb] = bank->neutral_sine[z][0];
        } else if (split == 1 && limb != one) {
            bank->neutral_cosine[z][limb] = bank->neutral_sine[z][limb] = 0;
        }
    }
}

/* Gives a bank neutral current (02, card 8) where two ends or more have the filter
 * off, and tells whether. It flows in at one or more of them and leaves at the one of
 * the largest factor: the end that balances the rest may have its filter on. Now and
 * then there is no other current. */
int draw_neutral(struct draw *d, const struct setting *s, struct bank *bank)
{
    size_t left = unfiltered_ends(s);

    if (left < 2)
        return 0;
    bank->neutral = 1;
    bank->neutral_shape = (unsigned)draw_from(d, 0, 3);
    bank->neutral_balance = widest_unfiltered(s);
    for (size_t z = 0; z < s->ends; z++)
        if (!s->end[z].filter && z != bank->neutral_balance &&
            (--left == 1 || draw_chance(d, 70)))
            draw_end_neutral(d, s, z, bank);
    if (draw_chance(d, 15)) {
        memset(bank->cosine, 0, sizeof bank->cosine);
        memset(bank->sine, 0, sizeof bank->sine);
    }
    return 1;
}

/* A limb current at set k: a cosine, one on an offset, a square or noise. */
static int64_t limb_current(struct draw *d, unsigned shape, int64_t c, int64_t s,
                            size_t k)
{
    int64_t wave = c / 1560 * cycle(k) + s / 1560 * cycle(k + 9);

    if (shape == 0)
        return wave + c % 1560;
    if (shape == 1)
        return (wave + s) / 2 + c % 1560;
    if (shape == 2)
        return k % 12 < 6 ? c : -c;
    return draw_from(d, c < 0 ? c : -c, c < 0 ? -c : c);
}

/* Adds the neutral current: what flows in at an end leaves at another, limb by
 * limb. */
static void add_neutral(struct draw *d, const struct setting *s,
                        const struct bank *bank, size_t k, int64_t w[MAX_ENDS][3])
{
    for (size_t z = 0; z < s->ends; z++)
        for (int limb = 0; limb < 3; limb++) {
            int64_t in = limb_current(d, bank->neutral_shape,
                                      bank->neutral_cosine[z][limb],
                                      bank->neutral_sine[z][limb], k);

            w[z][limb] += in;
            w[bank->neutral_balance][limb] -= in;
        }
}

/* Whole numbers w that sum to zero over ends, and over limbs but for neutral
 * current. */
static void draw_limbs(struct draw *d, const struct setting *s,
                       const struct bank *bank, size_t k, int64_t w[MAX_ENDS][3])
{
    memset(w, 0, MAX_ENDS * sizeof w[0]);
    for (size_t z = 0; z < s->ends; z++) {
        if (z == bank->balance)
            continue;
        for (int limb = 0; limb < 2; limb++)
            w[z][limb] = limb_current(d, bank->shape, bank->cosine[z][limb],
                                      bank->sine[z][limb], k);
        w[z][2] = -w[z][0] - w[z][1];
        for (int limb = 0; limb < 3; limb++)
            w[bank->balance][limb] -= w[z][limb];
    }
    if (bank->neutral)
        add_neutral(d, s, bank, k, w);
}

/* T(12-g) of the limb currents for one phase, times 2340; root three over
 * three is 1351/2340. At an odd group with the filter off a third of their sum comes
 * on top. */
static int64_t line_current(const int64_t w[3], size_t phase, const struct end *end)
{
    int64_t p = w[phase], n = w[(phase + 1) % 3], q = w[(phase + 2) % 3];
    int64_t third = end->filter ? 0 : 780 * (p + n + q);

    switch ((12 - end->group) % 12) {
    case 0: return 2340 * p;
    case 2: return -2340 * n;
    case 4: return 2340 * q;
    case 6: return -2340 * p;
    case 8: return 2340 * n;
    case 10: return -2340 * q;
    case 1: return 1351 * (p - n) + third;
    case 3: return 1351 * (q - n) + third;
    case 5: return 1351 * (q - p) + third;
    case 7: return 1351 * (n - p) + third;
    case 9: return 1351 * (n - q) + third;
    default: return 1351 * (p - q) + third;
    }
}

/* A sample within 1/2 of line/2340 thousandths over k plus zero sequence:
 * line * S / (4053 V I) + zero / 1000, a half going either way. */
static int64_t near_sample(struct draw *d, const struct setting *s, size_t z,
                           int64_t line, int64_t zero)
{
    __int128 vi = (__int128)s->end[z].voltage * s->end[z].current;
    __int128 bottom = 2 * 4053 * 1000 * vi;
    __int128 top = 2 * ((__int128)line * s->power * 1000 + zero * 4053 * vi);
    __int128 up = top + bottom / 2, sample;

    sample = up / bottom - (up % bottom < 0);
    if (up == sample * bottom && draw_chance(d, 50))
        sample--;
    if (sample > SAMPLE_LIMIT || sample < -SAMPLE_LIMIT)
        return SAMPLE_LIMIT + 1;
    return (int64_t)sample;
}

/* Samples of one end; 0 when one would be beyond the limit. */
static int end_samples(struct draw *d, const struct setting *s, size_t z,
                       const struct currents *c, int16_t list[SET_NUMBERS])
{
    for (size_t phase = 0; phase < 3; phase++) {
        int64_t line = line_current(c->w[z], phase, &s->end[z]);
        int64_t sample = near_sample(d, s, z, line, c->common[z]);

        if (sample > SAMPLE_LIMIT)
            return 0;
        list[3 * z + phase] = (int16_t)sample;
    }
    return 1;
}

/* The samples of a healthy bank's currents; 0 when one would be beyond the limit. */
int near_set(struct draw *d, const struct setting *s, const struct currents *c,
             int16_t list[SET_NUMBERS])
{
    memset(list, 0, SET_NUMBERS * sizeof list[0]);
    for (size_t z = 0; z < s->ends; z++)
        if (!end_samples(d, s, z, c, list))
            return 0;
    return 1;
}

/* Samples of the bank's ends, whose zero sequence is drawn where it is noise; 0 when
 * one would be beyond the limit. */
static int bank_samples(struct draw *d, const struct setting *s,
                        const struct bank *bank, struct currents *c,
                        int16_t list[SET_NUMBERS])
{
    for (size_t z = 0; z < s->ends; z++) {
        c->common[z] = bank->zero_sequence[z];
        if (s->end[z].filter && bank->shape == 3)
            c->common[z] = draw_from(d, -c->common[z], c->common[z]);
        if (!end_samples(d, s, z, c, list))
            return 0;
    }
    return 1;
}

/* Every current of the bank by a tenth less. */
static void lessen(const struct setting *s, struct bank *bank)
{
    for (size_t z = 0; z < s->ends; z++) {
        for (int limb = 0; limb < 2; limb++) {
            bank->cosine[z][limb] = bank->cosine[z][limb] * 9 / 10;
            bank->sine[z][limb] = bank->sine[z][limb] * 9 / 10;
        }
        for (int limb = 0; limb < 3; limb++) {
            bank->neutral_cosine[z][limb] = bank->neutral_cosine[z][limb] * 9 / 10;
            bank->neutral_sine[z][limb] = bank->neutral_sine[z][limb] * 9 / 10;
        }
        bank->zero_sequence[z] = bank->zero_sequence[z] * 9 / 10;
    }
}

/* One set of a healthy bank and its currents, taken back until it fits. Each is
 * tested by what a healthy bank is: without neutral current it is one by 01 too. */
void healthy_currents(struct draw *d, const struct setting *s,
                      const struct bank *bank, size_t k, struct currents *c,
                      int16_t list[SET_NUMBERS])
{
    struct bank part = *bank;

    memset(list, 0, SET_NUMBERS * sizeof list[0]);
    memset(c, 0, sizeof *c);
    draw_limbs(d, s, &part, k, c->w);
    while (!bank_samples(d, s, &part, c, list)) {
        lessen(s, &part);
        draw_limbs(d, s, &part, k, c->w);
    }
    if (healthy_by_02(s, c, list) && (bank->neutral || healthy_by_01(s, c, list)))
        return;
    fputs("draw: a set that is drawn for a healthy bank is not one of it\n", stderr);
    exit(1);
}

/* One set of a healthy bank. */
void healthy_set(struct draw *d, const struct setting *s, const struct bank *bank,
                 size_t k, int16_t list[SET_NUMBERS])
{
    struct currents c;

    healthy_currents(d, s, bank, k, &c, list);
}

/* ---- What a healthy bank is ---- */

/* The w of a phase and of the next and the one before, in T(12-g), by g; of odd g
 * times 1351/2340. */
static const int8_t BACK[12][3] = {
    {1, 0, 0},  {1, 0, -1}, {0, 0, -1}, {0, 1, -1}, {0, 1, 0},  {-1, 1, 0},
    {-1, 0, 0}, {-1, 0, 1}, {0, 0, 1},  {0, -1, 1}, {0, -1, 0}, {1, -1, 0}};

/* The sum of w over the limbs at an end. */
int64_t limb_sum(const struct currents *c, size_t z)
{
    return c->w[z][0] + c->w[z][1] + c->w[z][2];
}

/* The ideal current of a phase of an end, in thousandths: T(12-g) of w, by card 8
 * with a third of the sum of w at an odd group with the filter off; that divided by
 * k, 1351 V I / (780,000 S); and the common number where the filter is on. */
struct ratio ideal_current(const struct setting *s, size_t z, size_t phase,
                           const struct currents *c, int card8)
{
    const struct end *e = &s->end[z];
    const int64_t *w = c->w[z];
    struct ratio ideal = {0, (__int128)1351 * e->voltage * e->current};

    for (size_t i = 0; i < 3; i++)
        ideal.top += BACK[e->group][i] * w[(phase + i) % 3];
    if (e->group % 2 == 1) {
        ideal.top = 1351 * ideal.top;
        if (card8 && !e->filter)
            ideal.top += 780 * limb_sum(c, z);
        ideal.bottom *= 2340;
    }
    ideal.top *= (__int128)780000 * s->power;
    if (e->filter)
        ideal.top += c->common[z] * ideal.bottom;
    return ideal;
}

/* Whether a sample lies within 1/2, 500 thousandths, of its ideal. */
static int within_half(int64_t sample, struct ratio ideal)
{
    __int128 apart = 1000 * sample * ideal.bottom - ideal.top;

    return apart <= 500 * ideal.bottom && apart >= -500 * ideal.bottom;
}

/* Whether w sums to zero over the ends in use for each limb. */
static int ends_balance(const struct setting *s, const struct currents *c)
{
    for (size_t limb = 0; limb < 3; limb++) {
        int64_t sum = 0;

        for (size_t z = 0; z < s->ends; z++)
            sum += c->w[z][limb];
        if (sum != 0)
            return 0;
    }
    return 1;
}

/* Whether each sample of the ends in use is near its ideal, and the others are
 * zero. */
static int samples_near(const struct setting *s, const struct currents *c,
                        const int16_t list[SET_NUMBERS], int card8)
{
    for (size_t i = 0; i < 3u * s->ends; i++)
        if (!within_half(list[i], ideal_current(s, i / 3, i % 3, c, card8)))
            return 0;
    for (size_t i = 3u * s->ends; i < SET_NUMBERS; i++)
        if (list[i] != 0)
            return 0;
    return 1;
}

/* Whether a set is a healthy bank's with these currents by document 02, card 8: w
 * sums to zero over the ends for each limb, and over the limbs at each end with the
 * filter on. */
int healthy_by_02(const struct setting *s, const struct currents *c,
                  const int16_t list[SET_NUMBERS])
{
    for (size_t z = 0; z < s->ends; z++)
        if (s->end[z].filter && limb_sum(c, z) != 0)
            return 0;
    return ends_balance(s, c) && samples_near(s, c, list, 1);
}

/* The same by document 01 alone: over the limbs at every end, and no third. */
int healthy_by_01(const struct setting *s, const struct currents *c,
                  const int16_t list[SET_NUMBERS])
{
    for (size_t z = 0; z < s->ends; z++)
        if (limb_sum(c, z) != 0)
            return 0;
    return ends_balance(s, c) && samples_near(s, c, list, 0);
}

/* ---- The register page ---- */

/* An offset past the page, mostly one whose low bits are those of a byte in it. */
static uint64_t draw_beyond(struct draw *d)
{
    static const uint64_t beyond[8] = {
        64, 65, 70, 255, 256, 4294967296, 4294967299, UINT64_MAX};
    uint64_t low = (uint64_t)draw_from(d, 0, 7);

    if (draw_chance(d, 50))
        return beyond[low];
    return low | (uint64_t)1 << draw_from(d, 6, 63);
}

/* An offset in the page; of a write, mostly that of a byte that takes it. */
static uint64_t draw_offset(struct draw *d, int write)
{
    static const uint8_t written[8] = {3, 3, 3, 3, 4, 4, 7, 7};

    if (write && draw_chance(d, 90))
        return written[draw_from(d, 0, 7)];
    return (uint64_t)draw_from(d, 0, draw_chance(d, 60) ? 7 : 63);
}

/* A value to write: three bits, one at an edge, or any. */
static uint8_t draw_written(struct draw *d)
{
    static const uint8_t edge[8] = {0, 1, 2, 7, 8, 128, 248, 255};
    int64_t kind = draw_from(d, 0, 4);

    if (kind < 2)
        return (uint8_t)draw_from(d, 0, 7);
    return kind < 4 ? edge[draw_from(d, 0, 7)] : (uint8_t)draw_from(d, 0, 255);
}

/* A read or a write, one of twelve past the page. */
struct page_call draw_page_call(struct draw *d)
{
    struct page_call call = {(uint8_t)draw_chance(d, 45), 0, 0};

    call.offset = draw_from(d, 0, 11) == 0 ? draw_beyond(d)
                                           : draw_offset(d, call.write);
    if (call.write)
        call.value = draw_written(d);
    return call;
}
