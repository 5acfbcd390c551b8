/* The numbers to meet, and the forms of relay.c that were worked out
 * differently against the plain ones. */
#include "draw.h"

#include <stdio.h>
#include <string.h>

static unsigned checks, failures;

/* One check: what was found against what is wanted. */
static void meet(const char *what, int64_t found, int64_t wanted)
{
    checks++;
    if (found == wanted)
        return;
    failures++;
    printf("second: %s is %lld, not %lld\n", what, (long long)found,
           (long long)wanted);
}

/* Factors and the limits on them. */
static void check_factors(void)
{
    static const struct {
        uint32_t v, i, s, factor;
    } table[] = {{780, 1000, 1351, 65536},
                 {780, 16000, 1351, 1048576},
                 {780, 500, 1351, 32768},
                 {1100, 300, 400, 93647},
                 {200, 1200, 400, 68107}};
    static const struct {
        uint32_t first, other;
        int refusal;
    } limit[] = {{16000, 1000, 0}, {16001, 1000, 6}, {1000, 16001, 6},
                 {500, 500, 0},    {499, 499, 7},    {16000, 499, 7}};
    struct setting s = plain_setting;
    size_t offset;

    for (size_t i = 0; i < sizeof table / sizeof table[0]; i++) {
        s.power = table[i].s;
        s.end[0] = (struct end){table[i].v, table[i].i, 0, 0};
        meet("factor", (int64_t)matching_factor(&s, 0), table[i].factor);
    }
    s = plain_setting;
    for (size_t i = 0; i < sizeof limit / sizeof limit[0]; i++) {
        s.end[0].current = limit[i].first;
        s.end[1].current = limit[i].other;
        meet("factor limit", setting_refusal(&s, &offset), limit[i].refusal);
    }
}

/* Matched numbers of one end: factor by current, group, filter, phases. */
static void check_matching(void)
{
    static const struct {
        uint32_t current;
        uint8_t group, filter;
        int16_t sample[3];
        int32_t matched[3];
    } table[] = {{500, 0, 0, {1, -1, 0}, {1, -1, 0}},
                 {1000, 5, 0, {1000, 0, -1000}, {-1155, 577, 577}},
                 {1000, 5, 1, {1000, 0, -1000}, {-1155, 577, 577}},
                 {1000, 0, 1, {300, 0, 0}, {200, -100, -100}}};
    struct setting s = plain_setting;

    for (size_t i = 0; i < sizeof table / sizeof table[0]; i++) {
        int16_t list[SET_NUMBERS] = {0};
        int32_t v[SET_NUMBERS];

        s.end[1] = (struct end){780, table[i].current, table[i].group,
                                table[i].filter};
        memcpy(list + 3, table[i].sample, sizeof table[i].sample);
        match_set(&s, list, v);
        for (size_t y = 0; y < 3; y++)
            meet("matched number", v[3 + y], table[i].matched[y]);
        meet("other end", v[0] | v[1] | v[2] | v[6] | v[9], 0);
    }
}

/* Quotient to the nearest, a half going away from zero: the whole number toward
 * zero, or the next if what is left of top is half of bottom or more. */
static int64_t away_of(__int128 top, __int128 bottom)
{
    __int128 quotient = top / bottom, left = top % bottom;

    if (2 * left >= bottom)
        quotient++;
    if (2 * left <= -bottom)
        quotient--;
    return (int64_t)quotient;
}

/* The rounding of matched numbers at halves and beside them, on both sides of
 * zero: factors of 1/2 and of 5/8. */
static void check_matched_halves(void)
{
    static const struct {
        uint32_t current;
        int16_t sample[3];
        int32_t matched[3];
    } table[] = {{500, {0, 1, 2}, {0, 1, 1}},
                 {500, {3, 4, 5}, {2, 2, 3}},
                 {500, {0, -1, -2}, {0, -1, -1}},
                 {500, {-3, -4, -5}, {-2, -2, -3}},
                 {500, {31999, 32000, 7}, {16000, 16000, 4}},
                 {500, {-31999, -32000, -7}, {-16000, -16000, -4}},
                 {625, {3, 4, 5}, {2, 3, 3}},
                 {625, {11, 12, 13}, {7, 8, 8}},
                 {625, {-3, -4, -5}, {-2, -3, -3}},
                 {625, {-11, -12, -13}, {-7, -8, -8}}};
    struct setting s = plain_setting;

    for (size_t i = 0; i < sizeof table / sizeof table[0]; i++) {
        int16_t list[SET_NUMBERS] = {0};
        int32_t v[SET_NUMBERS];

        s.end[0].current = table[i].current;
        memcpy(list, table[i].sample, sizeof table[i].sample);
        match_set(&s, list, v);
        for (size_t y = 0; y < 3; y++)
            meet("matched half", v[y], table[i].matched[y]);
    }
}

/* The rounding of c and s at halves and beside them: a number u at place 0 has c
 * u/6 and s 0, at place 3 it has c 0 and s u/6, and at both c and s are u/6. */
static void check_amplitude_halves(void)
{
    static const struct {
        int32_t u, one, both;
    } table[] = {{0, 0, 0},  {2, 0, 0},  {3, 1, 1},  {4, 1, 1},
                 {8, 1, 1},  {9, 2, 2},  {10, 2, 2}, {14, 2, 2},
                 {15, 3, 4}, {16, 3, 4}, {20, 3, 4}, {21, 4, 5},
                 {3199995, 533333, 754246}};

    for (size_t i = 0; i < sizeof table / sizeof table[0]; i++)
        for (int32_t sign = -1; sign <= 1; sign += 2) {
            int32_t u = sign * table[i].u;
            const int32_t c[12] = {u}, s[12] = {0, 0, 0, u};
            const int32_t both[12] = {u, 0, 0, u};

            meet("half of c", amplitude(c, 1), table[i].one);
            meet("half of s", amplitude(s, 1), table[i].one);
            meet("half of both", amplitude(both, 1), table[i].both);
        }
}

/* The list of group operations, each over 1351 * 3, for the three phases
 * p, n, q with or without zero sequence taken out. */
static int64_t listed_operation(unsigned g, int filter, int64_t p, int64_t n,
                                int64_t q)
{
    int64_t sum = p + n + q, zero = filter ? 0 : 1351 * sum;
    int64_t p3 = 3 * p - (filter ? sum : 0), n3 = 3 * n - (filter ? sum : 0);
    int64_t q3 = 3 * q - (filter ? sum : 0);

    switch (g) {
    case 0: return 1351 * p3;
    case 2: return 1351 * -n3;
    case 4: return 1351 * q3;
    case 6: return 1351 * -p3;
    case 8: return 1351 * n3;
    case 10: return 1351 * -q3;
    case 1: return 780 * 3 * (p - n) + zero;
    case 3: return 780 * 3 * (q - n) + zero;
    case 5: return 780 * 3 * (q - p) + zero;
    case 7: return 780 * 3 * (n - p) + zero;
    case 9: return 780 * 3 * (n - q) + zero;
    default: return 780 * 3 * (p - q) + zero;
    }
}

/* Matching by weights against the listed operations, at every group and end. */
static void check_groups(void)
{
    struct draw d = {0x5EC0DD};

    for (unsigned i = 0; i < 4800; i++) {
        size_t z = 1 + i % 3;
        int16_t list[SET_NUMBERS];
        int32_t v[SET_NUMBERS];
        struct setting s;

        draw_setting(&d, 4, &s);
        s.end[z].group = (uint8_t)(i / 3 % 12);
        s.end[z].filter = (uint8_t)(i / 36 % 2);
        for (size_t j = 0; j < SET_NUMBERS; j++)
            list[j] = (int16_t)draw_from(&d, -SAMPLE_LIMIT, SAMPLE_LIMIT);
        match_set(&s, list, v);
        for (size_t y = 0; y < 3; y++) {
            int64_t t = listed_operation(s.end[z].group, s.end[z].filter,
                                         list[3 * z + y], list[3 * z + (y + 1) % 3],
                                         list[3 * z + (y + 2) % 3]);
            __int128 top = (__int128)matching_factor(&s, z) * t;
            __int128 bottom = (__int128)65536 * 1351 * 3;

            meet("group", v[3 * z + y], away_of(top, bottom));
        }
    }
}

/* Amplitude straight from its definition, its root by counting bits down. */
static int64_t defined_amplitude(const int32_t *u, unsigned h)
{
    static const int64_t t[12] = {1560,  1351,  780,  0, -780, -1351,
                                  -1560, -1351, -780, 0, 780,  1351};
    int64_t c = 0, s = 0, root = 0;

    for (unsigned k = 0; k < 12; k++) {
        c += t[h * k % 12] * u[k];
        s += t[(h * k + 9) % 12] * u[k];
    }
    c = away_of(c, 9360);
    s = away_of(s, 9360);
    for (int64_t bit = (int64_t)1 << 30; bit != 0; bit >>= 1)
        if ((root + bit) * (root + bit) <= c * c + s * s)
            root += bit;
    return root;
}

/* Listed windows, then random ones against the definition. */
static void check_amplitudes(void)
{
    static const unsigned harmonic[3] = {1, 2, 5};
    int32_t square[12], flat[12], u[12];
    struct draw d = {0xA3F11};

    for (int k = 0; k < 12; k++) {
        square[k] = k < 6 ? 100 : -100;
        flat[k] = 100;
    }
    meet("square D", amplitude(square, 1), 128);
    meet("square H2", amplitude(square, 2), 0);
    meet("square H5", amplitude(square, 5), 34);
    meet("flat D", amplitude(flat, 1), 0);
    for (unsigned i = 0; i < 3000; i++) {
        int64_t top = draw_spread(&d, 0, 3200000);

        for (int k = 0; k < 12; k++)
            u[k] = (int32_t)(draw_chance(&d, 20) ? top : draw_from(&d, -top, top));
        meet("amplitude", amplitude(u, harmonic[i % 3]),
             defined_amplitude(u, harmonic[i % 3]));
    }
}

/* The characteristic at the listed points and at its knees. */
static void check_characteristic(void)
{
    static const struct {
        int64_t r, d;
    } first[] = {{0, 201}, {200, 201}, {1200, 351}, {8000, 1371}, {10000, 2071}};
    struct setting s = plain_setting;

    for (size_t i = 0; i < sizeof first / sizeof first[0]; i++) {
        meet("start", starts(&s, first[i].d, first[i].r), 1);
        meet("no start", starts(&s, first[i].d - 1, first[i].r), 0);
    }
}

/* The all-zero block, and samples at their limit. */
static void check_refusals(void)
{
    static const int16_t sample[4] = {32000, 32001, -32000, -32001};
    struct setting s = plain_setting, back;
    uint8_t block[BLOCK_BYTES] = {0};
    struct relay relay, before;
    struct answer answer;
    size_t offset;

    meet("all zero", read_setting(block, BLOCK_BYTES, &back, &offset), 3);
    meet("start", relay_start(&s, &relay, &offset), 0);
    for (size_t i = 0; i < 4; i++) {
        int16_t list[SET_NUMBERS] = {0};

        before = relay;
        before.flags |= REFUSED_SET;
        list[2] = sample[i];
        meet("sample", relay_sample(&relay, list, 12, &answer), i % 2 ? 10 : 0);
        if (i % 2)
            meet("record", memcmp(&relay, &before, sizeof relay), 0);
        list[11] = 1;
        meet("order", relay_sample(&relay, list, 12, &answer), i % 2 ? 10 : 11);
        meet("list", relay_sample(&relay, list, 13, &answer), 14);
    }
    meet("held", relay.fill, 2);
}

/* Refusal 12 by each cause, in order before 14, and in reset. */
static void check_records(void)
{
    struct setting s = plain_setting;
    struct relay fresh, relay[9];
    struct answer answer;
    size_t offset;

    meet("start", relay_start(&s, &fresh, &offset), 0);
    for (size_t i = 0; i < 9; i++)
        relay[i] = fresh;
    relay[1].fill = 13;
    relay[2].values[143] = 800001;
    relay[3].values[141] = -800001;
    relay[4].counters[2] = 2;
    relay[5].setting.end[1].current = 499;
    relay[5].setting.end[0].current = 499;
    relay[6].sums[0] = 1000000001;
    relay[7].sums[2] = 1000000001;
    relay[8].sums[3] = UINT32_MAX;
    relay[0].sums[1] = relay[0].sums[3] = 1000000000;
    relay[0].values[143] = 800000;
    relay[0].values[141] = -800000;
    relay[0].fill = 12;
    relay[0].counters[2] = 1;
    for (size_t i = 0; i < 9; i++) {
        struct relay one = relay[i];

        meet("record", relay_sample(&one, NULL, 0, &answer), i ? 12 : 14);
        meet("flag", one.flags, i ? 0 : REFUSED_SET);
        one.flags = 0;
        meet("as before", memcmp(&one, &relay[i], sizeof one), 0);
        meet("reset", relay_reset(&one), i ? 12 : 0);
        meet("counter", one.counters[2], i == 4 ? 2 : 0);
    }
}

/* Refusals of the setting reader and its first wrong offsets. */
static void check_setting_block(void)
{
    static const struct {
        size_t at;
        uint8_t value;
        int refusal;
        size_t offset;
    } table[] = {{4, 1, 4, 0},     {4, 5, 4, 0},     {5, 8, 5, 5},
                 {6, 0, 5, 6},     {6, 25, 5, 6},    {7, 1, 5, 7},
                 {10, 1, 5, 8},    {20, 1, 5, 20},   {21, 2, 5, 21},
                 {22, 1, 5, 22},   {23, 1, 5, 23},   {32, 12, 5, 32},
                 {39, 1, 5, 36},   {41, 1, 5, 40},   {57, 1, 5, 57},
                 {61, 250, 5, 60}, {72, 81, 5, 72},  {74, 1, 5, 74},
                 {75, 1, 5, 74},   {76, 1, 5, 74},   {77, 1, 5, 77},
                 {509, 1, 5, 509}, {3, 0x32, 3, 0}, {32, 11, 0, 0}};
    struct setting s = plain_setting, back;
    uint8_t block[BLOCK_BYTES + 1];
    size_t offset;

    for (size_t i = 0; i < sizeof table / sizeof table[0]; i++) {
        lay_setting(&s, block);
        block[table[i].at] = table[i].value;
        meet("check", read_setting(block, BLOCK_BYTES, &back, &offset), 2);
        meet("length", read_setting(block, BLOCK_BYTES + 1, &back, &offset), 1);
        seal_block(block);
        meet("read", read_setting(block, BLOCK_BYTES, &back, &offset),
             table[i].refusal);
        meet("offset", (int64_t)offset, (int64_t)table[i].offset);
    }
}

/* Faults of the plain setting, which has two ends: bytes put to other values, and
 * the refusal and offset of the block and of its values by themselves. */
struct faults {
    struct {
        uint16_t at;
        uint8_t byte;
    } fault[3];
    int block, block_offset, values, values_offset;
};

static const struct faults FAULTS[] = {
    /* A spare byte is a field by itself. */
    {{{7, 1}}, 5, 7, 0, 0},
    {{{7, 1}, {11, 1}}, 5, 7, 5, 8},
    {{{22, 1}, {23, 1}}, 5, 22, 0, 0},
    {{{23, 255}, {26, 1}}, 5, 23, 5, 24},
    {{{59, 1}, {61, 255}}, 5, 59, 5, 60},
    {{{509, 1}}, 5, 509, 0, 0},
    {{{509, 1}, {77, 128}}, 5, 77, 0, 0},
    /* A number is one field, whichever of its bytes makes it wrong. */
    {{{11, 1}, {15, 1}}, 5, 8, 5, 8},
    {{{15, 1}, {19, 1}}, 5, 12, 5, 12},
    {{{19, 1}, {20, 1}}, 5, 16, 5, 16},
    {{{61, 255}, {63, 255}}, 5, 60, 5, 60},
    {{{73, 1}, {74, 1}}, 5, 72, 5, 72},
    {{{72, 9}, {74, 1}}, 5, 72, 5, 72},
    /* The group of end 0 is 0, that of end 1 up to 11. */
    {{{20, 1}, {22, 1}}, 5, 20, 5, 20},
    {{{20, 11}, {21, 2}, {23, 1}}, 5, 20, 5, 20},
    {{{21, 2}, {22, 1}, {23, 1}}, 5, 21, 5, 21},
    {{{32, 11}, {33, 2}}, 5, 33, 5, 33},
    {{{32, 12}, {33, 2}}, 5, 32, 5, 32},
    /* A number of an unused end is one field, all its bytes together. */
    {{{39, 1}, {40, 1}}, 5, 36, 5, 36},
    {{{43, 1}}, 5, 40, 5, 40},
    {{{43, 128}, {42, 1}, {44, 1}}, 5, 40, 5, 40},
    {{{44, 1}, {45, 1}}, 5, 44, 5, 44},
    {{{45, 1}, {46, 1}}, 5, 45, 5, 45},
    {{{46, 1}, {51, 1}}, 5, 46, 5, 48},
    {{{47, 1}, {55, 1}}, 5, 47, 5, 52},
    {{{58, 1}, {57, 1}}, 5, 57, 5, 57},
    /* An end that is in use without having been set. */
    {{{4, 3}}, 5, 36, 5, 36},
    {{{4, 3}, {35, 1}}, 5, 35, 5, 36},
    {{{4, 3}, {36, 1}, {51, 1}}, 5, 40, 5, 40},
    /* X is 0 at curve 0, 200 to 4,000 at any other byte; the curve is up to 2. */
    {{{74, 200}}, 5, 74, 5, 74},
    {{{75, 1}, {77, 1}}, 5, 74, 5, 74},
    {{{76, 1}}, 5, 74, 5, 74},
    {{{76, 255}}, 5, 74, 5, 74},
    {{{74, 199}, {76, 1}}, 5, 74, 5, 74},
    {{{74, 200}, {76, 1}}, 0, 0, 0, 0},
    {{{74, 160}, {75, 15}, {76, 2}}, 0, 0, 0, 0},
    {{{74, 161}, {75, 15}, {76, 2}}, 5, 74, 5, 74},
    {{{74, 199}, {76, 3}}, 5, 74, 5, 74},
    {{{74, 200}, {76, 3}}, 5, 76, 5, 76},
    {{{74, 161}, {75, 15}, {76, 255}}, 5, 74, 5, 74},
    {{{75, 8}, {76, 255}, {77, 1}}, 5, 76, 5, 76},
    {{{75, 8}, {76, 2}, {77, 1}}, 5, 77, 0, 0},
    {{{73, 1}, {76, 3}}, 5, 72, 5, 72},
    {{{17, 125}, {76, 1}}, 5, 74, 5, 74},
    {{{17, 125}, {75, 8}, {76, 1}}, 6, 0, 6, 0},
    /* From one end of the block to the other. */
    {{{74, 1}, {5, 8}}, 5, 5, 5, 5},
    {{{509, 1}, {72, 81}, {6, 25}}, 5, 6, 5, 6},
    /* 4 comes before it, 6 and 7 come after it. */
    {{{4, 5}, {5, 8}}, 4, 0, 4, 0},
    {{{4, 1}, {7, 1}, {6, 25}}, 4, 0, 4, 0},
    {{{17, 125}}, 6, 0, 6, 0},
    {{{17, 125}, {509, 1}}, 5, 509, 6, 0},
    {{{17, 1}}, 7, 0, 7, 0},
    {{{17, 1}, {70, 9}, {58, 1}}, 5, 58, 5, 70}};

/* Start and writer on values; refused, they leave relay and buffer as before. With
 * either, 5 comes at the same offset. */
static void meet_values(const struct setting *s, int start, int write, int64_t at)
{
    struct relay relay, no_relay;
    uint8_t buffer[600], filled[600];
    size_t offset;

    memset(&relay, 0xA5, sizeof relay);
    memset(&no_relay, 0xA5, sizeof no_relay);
    memset(buffer, 0xA5, sizeof buffer);
    memset(filled, 0xA5, sizeof filled);
    meet("start", relay_start(s, &relay, &offset), start);
    meet("start's offset", (int64_t)offset, at);
    meet("started", memcmp(&relay, &no_relay, sizeof relay) != 0, start == 0);
    meet("short", write_setting(s, buffer, 511, &offset), write ? write : 13);
    meet("short's offset", (int64_t)offset, at);
    meet("untouched", memcmp(buffer, filled, sizeof buffer), 0);
    meet("write", write_setting(s, buffer, sizeof buffer, &offset), write);
    meet("write's offset", (int64_t)offset, at);
    meet("written", memcmp(buffer, filled, 512) != 0, write == 0);
    meet("behind", memcmp(buffer + 512, filled + 512, 88), 0);
}

/* Refusal 5 gives the lowest offset of a field outside its rule (document 02,
 * card 3). */
static void check_first_fault(void)
{
    for (size_t i = 0; i < sizeof FAULTS / sizeof FAULTS[0]; i++) {
        const struct faults *f = &FAULTS[i];
        uint8_t block[BLOCK_BYTES];
        struct setting s;
        size_t offset;

        lay_setting(&plain_setting, block);
        for (size_t k = 0; k < 3 && f->fault[k].at != 0; k++)
            block[f->fault[k].at] = f->fault[k].byte;
        seal_block(block);
        meet("faults", read_setting(block, BLOCK_BYTES, &s, &offset), f->block);
        meet("lowest offset", (int64_t)offset, f->block_offset);
        take_setting(block, &s);
        meet_values(&s, f->values, f->values, f->values_offset);
    }
}

/* What the setting writer writes reads back; only its 512 bytes change. */
static void check_setting_writer(void)
{
    struct draw d = {0x317E};

    for (int i = 0; i < 500; i++) {
        uint8_t block[BLOCK_BYTES + 1], again[BLOCK_BYTES];
        struct setting s, back;
        size_t offset;

        memset(block, 0xA5, sizeof block);
        draw_any_setting(&d, (uint8_t)(2 + i % 3), &s);
        meet("short", write_setting(&s, block, BLOCK_BYTES - 1, &offset), 13);
        meet("untouched", block[0] == 0xA5 && block[511] == 0xA5, 1);
        meet("write", write_setting(&s, block, sizeof block, &offset), 0);
        meet("behind", block[512], 0xA5);
        meet("read", read_setting(block, BLOCK_BYTES, &back, &offset), 0);
        meet("again", write_setting(&back, again, BLOCK_BYTES, &offset), 0);
        meet("same bytes", memcmp(block, again, BLOCK_BYTES), 0);
        s.ends = 5;
        meet("before short", write_setting(&s, block, 0, &offset), 4);
    }
}

/* The sample writer at each block of a record and beyond; what it writes
 * comes back, and what lies around stays. */
static void check_sample_block(void)
{
    uint8_t record[3 * BLOCK_BYTES + 100], around[sizeof record];
    int16_t list[BLOCK_NUMBERS], back[BLOCK_NUMBERS];
    struct draw d = {77};
    size_t count = 0;

    memset(record, 0xA5, sizeof record);
    for (size_t i = 0; i < BLOCK_NUMBERS; i++)
        list[i] = (int16_t)draw_from(&d, -32768, 32767);
    memcpy(around, record, sizeof record);
    for (size_t n = 0; n <= 264; n += 1)
        meet("list", write_samples(record, 511, 0, list, n),
             n % 12 || n > 252 ? 14 : 13);
    meet("far", write_samples(record, sizeof record, 3, list, 12), 13);
    meet("farther", write_samples(record, sizeof record, SIZE_MAX, list, 12), 13);
    meet("wrap", write_samples(record, sizeof record, SIZE_MAX / 512 + 1, list, 0),
         13);
    meet("untouched", memcmp(record, around, sizeof record), 0);
    for (size_t n = 0; n <= 252; n += 12) {
        meet("write", write_samples(record, sizeof record, 1, list, n), 0);
        meet("read", read_samples(record + 512, 512, back, &count), 0);
        meet("count", (int64_t)count, (int64_t)n);
        meet("same", memcmp(list, back, 2 * n), 0);
        meet("before", memcmp(record, around, 512), 0);
        meet("behind", memcmp(record + 1024, around + 1024, 612), 0);
    }
}

/* Refusals of the sample block reader in their order. */
static void check_sample_reader(void)
{
    static const struct {
        size_t at;
        uint8_t value;
        int refusal;
    } table[] = {{1, 22, 8}, {2, 1, 9},   {3, 1, 9},   {28, 1, 9},
                 {509, 1, 9}, {0, 0x54, 3}, {27, 1, 0}, {1, 0, 9}};
    int16_t list[12] = {0, 0, 0, 0, 0, 0, 0, 0, 0, 0, 0, 5}, back[BLOCK_NUMBERS];
    uint8_t block[BLOCK_BYTES];
    size_t count = 0;

    for (size_t i = 0; i < sizeof table / sizeof table[0]; i++) {
        meet("write", write_samples(block, 512, 0, list, 12), 0);
        block[table[i].at] = table[i].value;
        meet("check", read_samples(block, 512, back, &count), 2);
        meet("length", read_samples(block, 511, back, &count), 1);
        seal_block(block);
        meet("read", read_samples(block, 512, back, &count), table[i].refusal);
    }
}

static const char BENCH[] = "set state D1 D2 D3 trip\n"
                            "1 F 0 0 0 0\n"
                            "2 F 0 0 0 0\n"
                            "3 F 0 0 0 0\n"
                            "4 F 0 0 0 0\n"
                            "5 F 0 0 0 0\n"
                            "6 F 0 0 0 0\n"
                            "7 F 0 0 0 0\n"
                            "8 F 0 0 0 0\n"
                            "9 F 0 0 0 0\n"
                            "10 F 0 0 0 0\n"
                            "11 F 0 0 0 0\n"
                            "12 M 499 0 0 1\n";

/* The bench program's lines for its one block. */
static size_t bench_lines(struct relay *relay, const int16_t *list, char *text,
                          size_t room)
{
    size_t used = (size_t)snprintf(text, room, "set state D1 D2 D3 trip\n");

    for (int i = 0; i < 12; i++) {
        struct answer a = {0};
        int32_t *d[3] = {&a.system[0].differential, &a.system[1].differential,
                         &a.system[2].differential};

        meet("bench set", relay_sample(relay, list + 12 * i, 12, &a), 0);
        used += (size_t)snprintf(text + used, room - used, "%d %c %d %d %d %d\n",
                                 i + 1, a.filling ? 'F' : 'M', *d[0], *d[1], *d[2],
                                 relay->latches[0] + 2 * relay->latches[1] +
                                     4 * relay->latches[2]);
    }
    return used;
}

/* The bench example, by calls and as one measured block. */
static void check_bench(void)
{
    struct setting s = plain_setting;
    int16_t list[144] = {0};
    uint8_t setting[BLOCK_BYTES], samples[BLOCK_BYTES];
    struct relay relay;
    char text[1000];
    size_t offset;

    list[12 * 11] = 3000;
    meet("start", relay_start(&s, &relay, &offset), 0);
    meet("bench length", (int64_t)bench_lines(&relay, list, text, sizeof text),
         sizeof BENCH - 1);
    meet("bench text", strcmp(text, BENCH), 0);
    meet("write", write_setting(&s, setting, sizeof setting, &offset), 0);
    meet("write", write_samples(samples, sizeof samples, 0, list, 144), 0);
    meet("measured", measure_block(setting, 512, samples, 512), 101);
    meet("setting first", measure_block(setting, 511, samples, 511), 1);
    samples[509] = 1;
    meet("samples next", measure_block(setting, 512, samples, 512), 2);
}

/* Blocking holds a start back but not the high-set; a reset unlatches. */
static void check_trip(void)
{
    struct setting s = plain_setting;
    struct relay relay;
    struct answer a;
    size_t offset;

    s.flags = BLOCK_ON_SECOND;
    s.confirm = 2;
    s.high_set = 2500;
    for (int level = 0; level < 2; level++) {
        int16_t list[SET_NUMBERS] = {0};

        meet("start", relay_start(&s, &relay, &offset), 0);
        for (int k = 0; k < 14; k++) {
            list[0] = (int16_t)(k == 3 ? level ? 32000 : 6000 : 0);
            meet("set", relay_sample(&relay, list, 12, &a), 0);
        }
        meet("starts", a.system[0].start, 1);
        meet("blocked", a.system[0].blocked, 1);
        meet("other blocked", a.system[1].blocked, 0);
        meet("latched", a.latched[0], level);
        meet("counter", relay.counters[0], level ? 2 : 0);
        meet("reset", relay_reset(&relay), 0);
        meet("unlatched", relay.latches[0] + relay.counters[0] + relay.fill, 12);
    }
}

/* ---- Turned current transformers ---- */

#define TURNED_LISTS 4000
#define TURNED_CALLS 30

/* What goes on in a list of calls. */
struct scene {
    struct setting setting;
    unsigned kind;
    struct wave wave;
    struct bank bank;
};

/* Calls of the lists: in all, and those that end in each of these. */
static struct {
    unsigned calls, refused, full, started, blocked, latched, tripped;
} turned;

/* Counts a sample call. */
static void count_turned(enum refusal refusal, const struct answer *a)
{
    static const uint8_t none[MAX_ENDS] = {0};
    int started = 0, blocked = 0, latched = 0;

    for (size_t y = 0; y < SYSTEMS; y++) {
        started |= a->system[y].start;
        blocked |= a->system[y].blocked;
        latched |= a->latched[y];
    }
    turned.calls++;
    turned.refused += refusal != ACCEPTED;
    turned.full += refusal == ACCEPTED && a->filling == 0;
    turned.started += (unsigned)started;
    turned.blocked += (unsigned)blocked;
    turned.latched += (unsigned)latched;
    turned.tripped += memcmp(a->tripped, none, sizeof none) != 0;
}

/* Whether two answers are the same in every field. */
static int answer_same(const struct answer *a, const struct answer *b)
{
    int same = a->filling == b->filling &&
               memcmp(a->tripped, b->tripped, sizeof a->tripped) == 0;

    for (size_t y = 0; y < SYSTEMS; y++) {
        const struct measured *m = &a->system[y], *o = &b->system[y];

        same &= m->differential == o->differential && m->twice_restraint == o->twice_restraint &&
                m->second == o->second && m->fifth == o->fifth &&
                m->start == o->start && m->blocked == o->blocked &&
                a->latched[y] == b->latched[y];
    }
    return same;
}

/* Whether of two records one has the other's matched numbers negated, and all
 * else that calls can change is the same. */
static int record_turned(const struct relay *a, const struct relay *b)
{
    int same = a->fill == b->fill && a->flags == b->flags && a->mask == b->mask;

    for (size_t i = 0; i < WINDOW_NUMBERS; i++)
        same &= a->values[i] == -b->values[i];
    for (size_t y = 0; y < SYSTEMS; y++)
        same &= a->counters[y] == b->counters[y] && a->latches[y] == b->latches[y];
    for (size_t z = 0; z < MAX_ENDS; z++)
        same &= a->sums[z] == b->sums[z] && a->trips[z] == b->trips[z];
    return same;
}

/* The sample call of a list, and on the other relay that of the list turned. */
static void turned_samples(struct relay *relay, struct relay *other, int16_t *list,
                           size_t n)
{
    struct answer a = {0}, b = {0};
    enum refusal refusal = relay_sample(relay, list, n, &a);

    turn_samples(list, n);
    meet("turned refusal", relay_sample(other, list, n, &b), refusal);
    meet("turned answer", answer_same(&a, &b), 1);
    meet("turned record", record_turned(relay, other), 1);
    count_turned(refusal, &a);
}

/* The reset call of both relays. */
static void turned_reset(struct relay *relay, struct relay *other)
{
    meet("reset", relay_reset(relay), 0);
    meet("turned reset", relay_reset(other), 0);
    meet("turned record", record_turned(relay, other), 1);
}

/* Starts a relay whose sums are so near to their limit that elements trip. */
static void start_near(const struct setting *s, struct relay *relay)
{
    size_t offset;

    meet("start", relay_start(s, relay, &offset), 0);
    for (uint32_t z = 0; z < MAX_ENDS; z++)
        relay->sums[z] = SUM_LIMIT - 1 - 2000000 * z;
}

/* Scene number i: each number of ends, every other one with factors that make
 * halves, and all kinds and curves in turn; low pick-up, and few sets to confirm. */
static void draw_turned(struct draw *d, unsigned i, struct scene *scene)
{
    struct setting *s = &scene->setting;

    draw_setting(d, (uint8_t)(2 + i % 3), s);
    if (i % 2)
        draw_eighths(d, s);
    s->confirm = (uint8_t)draw_from(d, 1, 4);
    s->pick_up = (uint16_t)draw_from(d, 100, 600);
    s->curve = (uint8_t)(i / 24 % 3);
    s->overcurrent = (uint16_t)(s->curve == 0 ? 0 : 200 + i % 600);
    scene->kind = i / 6 % 4;
    draw_wave(d, s, draw_spread(d, 400, 40000), (unsigned)draw_from(d, 0, 3),
              &scene->wave);
    draw_bank(d, s, &scene->bank);
}

/* Set number k: of a wave, of a healthy bank, noise, or noise in every third set
 * alone, so that c and s are often halves; one of twenty is to be declined. */
static void turned_set(struct draw *d, const struct scene *scene, size_t k,
                       int16_t *list)
{
    const struct setting *s = &scene->setting;
    int64_t top = scene->kind == 2 || k % 3 == 0 ? SAMPLE_LIMIT : 0;

    memset(list, 0, SET_NUMBERS * sizeof list[0]);
    if (scene->kind == 0)
        wave_set(&scene->wave, s, k, list);
    else if (scene->kind == 1)
        healthy_set(d, s, &scene->bank, k, list);
    else
        for (size_t i = 0; i < 3u * s->ends; i++)
            list[i] = (int16_t)draw_from(d, -top, top);
    if (draw_chance(d, 5))
        spoil_set(d, s, list);
}

/* A list of calls on two fresh relays. */
static void turned_list(struct draw *d, const struct scene *scene)
{
    int16_t list[2 * SET_NUMBERS] = {0};
    struct relay relay, other;

    start_near(&scene->setting, &relay);
    start_near(&scene->setting, &other);
    for (size_t k = 0; k < TURNED_CALLS; k++) {
        int64_t call = draw_from(d, 0, 99);

        turned_set(d, scene, k, list);
        if (call < 5)
            turned_reset(&relay, &other);
        else if (call < 7)
            turned_samples(&relay, &other, list, (size_t)draw_from(d, 0, 24));
        else
            turned_samples(&relay, &other, list, SET_NUMBERS);
    }
}

/* Negating all samples of a list leaves every answer as it was (document 02,
 * card 1); half of the windows at least are full. */
static void check_turned_lists(void)
{
    struct draw d = {0x72D11ED};
    struct scene scene;

    for (unsigned i = 0; i < TURNED_LISTS; i++) {
        draw_turned(&d, i, &scene);
        turned_list(&d, &scene);
    }
    meet("half of the turned windows full", 2 * turned.full >= turned.calls, 1);
    meet("turned sets refused", turned.refused > 0, 1);
    meet("turned sets that start", turned.started > 0, 1);
    meet("turned sets blocked", turned.blocked > 0, 1);
    meet("turned sets latched", turned.latched > 0, 1);
    meet("turned sets with a tripped element", turned.tripped > 0, 1);
    printf("second: %u turned lists, %u sample calls, %u refused, %u full, "
           "%u started, %u blocked, %u latched, %u with a tripped element\n",
           TURNED_LISTS, turned.calls, turned.refused, turned.full, turned.started,
           turned.blocked, turned.latched, turned.tripped);
}

/* One sample on phase A of end 0 and zeros in a window, both factors the same. */
struct single {
    uint32_t current;
    size_t place;
    int16_t sample;
    int32_t matched, d;
    uint8_t trip;
};

/* The window of a single sample, as it is or turned: what it comes to. */
static void single_sample(const struct single *one, int turn)
{
    struct setting s = plain_setting;
    struct relay relay;
    struct answer a;
    size_t offset;

    s.end[0].current = s.end[1].current = one->current;
    meet("start", relay_start(&s, &relay, &offset), 0);
    for (size_t k = 0; k < WINDOW_SETS; k++) {
        int16_t list[SET_NUMBERS] = {0};

        list[0] = k == one->place ? one->sample : 0;
        if (turn)
            turn_samples(list, SET_NUMBERS);
        meet("single set", relay_sample(&relay, list, SET_NUMBERS, &a), 0);
    }
    meet("single matched", relay.values[SET_NUMBERS * one->place],
         turn ? -one->matched : one->matched);
    meet("single D", a.system[0].differential, one->d);
    meet("single R", a.system[0].twice_restraint, one->d);
    meet("single start", a.system[0].start, one->trip);
    meet("single latch", a.latched[0], one->trip);
}

/* Single samples for which D would change when turned, if a half went up: by a
 * half of the matched number, by one of c, and by one of c at the threshold. */
static void check_turned_singles(void)
{
    static const struct single table[] = {{500, 1, 7, 4, 1, 0},
                                          {1000, 0, 3, 3, 1, 0},
                                          {1000, 0, 1203, 1203, 201, 1}};

    for (size_t i = 0; i < sizeof table / sizeof table[0]; i++) {
        single_sample(&table[i], 0);
        single_sample(&table[i], 1);
    }
}

/* ---- The register page ---- */

/* Reads a byte that can be read. */
static uint8_t page_byte(const struct relay *relay, uint64_t offset)
{
    uint8_t byte = 0;

    meet("page read", relay_read(relay, offset, &byte), 0);
    return byte;
}

/* All 64 bytes against those wanted. */
static void meet_page(const struct relay *relay, const uint8_t wanted[PAGE_BYTES])
{
    for (size_t i = 0; i < PAGE_BYTES; i++)
        meet("page byte", page_byte(relay, i), wanted[i]);
}

/* Writes a byte that can be written. */
static void page_write(struct relay *relay, uint64_t offset, uint8_t byte)
{
    meet("page write", relay_write(relay, offset, byte), 0);
}

/* So many accepted sets with one sample on a phase of end 0, else zeros. */
static void single_sets(struct relay *relay, size_t sets, size_t phase,
                        int16_t sample)
{
    int16_t list[SET_NUMBERS] = {0};
    struct answer a;

    list[phase] = sample;
    for (size_t i = 0; i < sets; i++)
        meet("page set", relay_sample(relay, list, SET_NUMBERS, &a), 0);
}

/* A relay on a setting, after twelve sets of zeros. */
static struct relay full_relay(const struct setting *s)
{
    struct relay relay;
    size_t offset;

    meet("start", relay_start(s, &relay, &offset), 0);
    single_sets(&relay, WINDOW_SETS, 0, 0);
    meet("full", relay.fill, WINDOW_SETS);
    return relay;
}

/* Set number k of a window: phase A a peak in the last set, B and C squares. */
static void page_set(size_t k, int16_t list[SET_NUMBERS])
{
    int sign = k < 6 ? 1 : -1;

    memset(list, 0, SET_NUMBERS * sizeof list[0]);
    list[0] = (int16_t)(k == 11 ? 6000 : 0);
    list[3] = (int16_t)(k == 11 ? -2000 : 0);
    list[1] = (int16_t)(100 * sign);
    list[4] = (int16_t)(30 * sign);
    list[2] = (int16_t)(32000 * sign);
    list[5] = (int16_t)(20000 * sign);
}

/* Each byte of the page: nothing until the window is full; then D and R 666 and
 * 1,333, 167 and 89, 66,970 and 15,454, where system 1 starts and is blocked,
 * system 2 doesn't start, and system 3 trips. */
static void check_page_bytes(void)
{
    static const uint8_t none[PAGE_BYTES] = {0};
    static const uint8_t full[PAGE_BYTES] = {
        4,    5,    1, 3, 0,    0, 0, 0, 0x9A, 0x02, 0, 0, 0x35, 0x05, 0, 0,
        0xA7, 0,    0, 0, 0x59, 0, 0, 0, 0x9A, 0x05, 1, 0, 0x5E, 0x3C, 0, 0};
    struct setting s = plain_setting;
    int16_t list[SET_NUMBERS];
    struct relay relay;
    struct answer a;
    size_t offset;

    s.flags = BLOCK_ON_SECOND;
    meet("start", relay_start(&s, &relay, &offset), 0);
    for (size_t k = 0; k < WINDOW_SETS; k++) {
        meet_page(&relay, none);
        page_set(k, list);
        meet("set", relay_sample(&relay, list, SET_NUMBERS, &a), 0);
    }
    meet_page(&relay, full);
    relay.fill = 11;
    meet("latched while filling", page_byte(&relay, 0), 4);
    relay.latches[2] = 0;
    page_write(&relay, 3, 3);
    meet_page(&relay, none);
}

/* What a reset, by its call or by byte 7, and a refused set leave of the page. */
static void check_page_reset(void)
{
    static const uint8_t other[5] = {0, 2, 3, 128, 255};
    struct relay relay = full_relay(&plain_setting), by_call, before;
    int16_t list[SET_NUMBERS] = {0, 0, 0, 0, 0, 0, 1};
    uint8_t page[PAGE_BYTES];
    struct answer a;

    page_write(&relay, 4, 2);
    single_sets(&relay, 1, 1, 3000);
    for (size_t i = 0; i < PAGE_BYTES; i++)
        page[i] = page_byte(&relay, i);
    meet("masks", page[0] * 100 + page[1] * 10 + page[2], 220);
    meet("flags", page[3] * 100 + page[4] * 10 + page[5], 321);
    before = relay;
    for (size_t i = 0; i < 5; i++)
        page_write(&relay, 7, other[i]);
    meet("no reset", memcmp(&relay, &before, sizeof relay), 0);
    by_call = relay;
    meet("reset", relay_reset(&by_call), 0);
    page_write(&relay, 7, 1);
    meet("one reset as the other", memcmp(&relay, &by_call, sizeof relay), 0);
    page[0] = 0;
    meet_page(&relay, page);
    meet("unused end", relay_sample(&relay, list, SET_NUMBERS, &a), 11);
    page[3] = 7;
    meet_page(&relay, page);
}

/* Starts that go on, that go and that come again, with latches and resets. */
static void check_new_starts(void)
{
    struct relay relay = full_relay(&plain_setting);

    meet("no flag", relay.flags, 0);
    single_sets(&relay, 1, 0, 3000);
    meet("start and trip", relay.flags, 3);
    page_write(&relay, 3, 255);
    single_sets(&relay, 11, 0, 0);
    meet("goes on", relay.flags * 10 + page_byte(&relay, 1), 1);
    single_sets(&relay, 1, 0, 0);
    meet("goes", relay.flags * 10 + page_byte(&relay, 1), 0);
    meet("stays latched", page_byte(&relay, 0), 1);
    single_sets(&relay, 1, 0, 3000);
    meet("comes again, latched before", relay.flags, 1);
    page_write(&relay, 3, 1);
    meet("reset", relay_reset(&relay), 0);
    meet("no flag by a reset", relay.flags, 0);
    meet("start stays", page_byte(&relay, 1), 1);
    single_sets(&relay, 1, 0, 0);
    meet("latches again", relay.flags, 2);
    single_sets(&relay, 1, 2, 3000);
    meet("another beside it", relay.flags, 3);
    meet("both", page_byte(&relay, 0) * 10 + page_byte(&relay, 1), 55);
}

/* A start that trips at the second set, one that is blocked, one right when the
 * window is full, and one that goes on over a refused set. */
static void check_new_trips(void)
{
    struct setting s = plain_setting;
    struct relay relay;
    struct answer a;
    size_t offset;

    s.confirm = 2;
    relay = full_relay(&s);
    single_sets(&relay, 1, 0, 3000);
    meet("start alone", relay.flags, 1);
    page_write(&relay, 3, 1);
    single_sets(&relay, 1, 0, 0);
    meet("trip alone", relay.flags, 2);
    s.flags = BLOCK_ON_SECOND;
    relay = full_relay(&s);
    single_sets(&relay, 3, 0, 0);
    single_sets(&relay, 1, 0, 3000);
    single_sets(&relay, 5, 0, 0);
    meet("start that is blocked", relay.flags, 1);
    meet("start", relay_start(&plain_setting, &relay, &offset), 0);
    single_sets(&relay, 11, 0, 3000);
    meet("filling", relay.flags, 0);
    single_sets(&relay, 1, 0, 0);
    meet("just full", relay.flags, 3);
    page_write(&relay, 3, 3);
    meet("no set", relay_sample(&relay, NULL, 0, &a), 14);
    meet("refused", relay.flags, 4);
    single_sets(&relay, 1, 0, 0);
    meet("goes on over it", relay.flags, 4);
}

/* A set that meets 10, 11 or 14 raises flag 2 and leaves all else; at 12 no
 * flag is raised. */
static void check_refused_flag(void)
{
    static const size_t place[3] = {0, 11, 0}, length[3] = {12, 12, 13};
    static const int16_t sample[3] = {32001, 1, 0};
    static const int refusal[3] = {10, 11, 14};

    for (size_t i = 0; i < 3; i++) {
        struct relay relay = full_relay(&plain_setting), before = relay;
        int16_t list[SET_NUMBERS + 1] = {0};
        struct answer a;

        list[place[i]] = sample[i];
        meet("refused", relay_sample(&relay, list, length[i], &a), refusal[i]);
        meet("its flag", relay.flags, 4);
        before.flags = 4;
        meet("all else", memcmp(&relay, &before, sizeof relay), 0);
        before.flags = 0;
        before.fill = 13;
        relay = before;
        meet("refused", relay_sample(&relay, list, length[i], &a), 12);
        meet("no flag", memcmp(&relay, &before, sizeof relay), 0);
    }
}

/* Every flags and mask with every byte written to 3 and to 4: what is left, and
 * byte 5. */
static void check_page_writes(void)
{
    struct relay relay = full_relay(&plain_setting);

    for (unsigned i = 0; i < 8 * 8 * 256; i++) {
        unsigned flags = i % 8, mask = i / 8 % 8, byte = i / 64, left = 0;

        for (unsigned bit = 1; bit < 8; bit *= 2)
            if (flags / bit % 2 == 1 && byte / bit % 2 == 0)
                left += bit;
        relay.flags = (uint8_t)flags;
        relay.mask = (uint8_t)mask;
        meet("byte 5", page_byte(&relay, 5), (flags & mask) != 0);
        page_write(&relay, 3, (uint8_t)byte);
        meet("flags left", page_byte(&relay, 3), left);
        meet("mask as before", page_byte(&relay, 4), mask);
        meet("byte 5 of those left", page_byte(&relay, 5), (left & mask) != 0);
        page_write(&relay, 4, (uint8_t)byte);
        meet("three bits", page_byte(&relay, 4), byte % 8);
        meet("flags as before", page_byte(&relay, 3), left);
    }
}

/* Byte 5 rises with a flag under its mask bit and falls with the flag, then
 * rises and falls with the mask; flags go one at a time. */
static void check_interrupt(void)
{
    static const struct {
        uint8_t offset, byte, flags, rises;
    } step[] = {{4, 0xFA, 7, 1}, {3, 0xF9, 6, 1}, {3, 2, 4, 0}, {4, 0xFB, 4, 0},
                {4, 4, 4, 1},    {3, 3, 4, 1},    {3, 0, 4, 1}, {3, 4, 0, 0}};
    struct relay relay = full_relay(&plain_setting);
    struct answer a;

    page_write(&relay, 4, 2);
    meet("no interrupt", page_byte(&relay, 5), 0);
    meet("no set", relay_sample(&relay, NULL, 0, &a), 14);
    meet("a flag that is masked", page_byte(&relay, 5), 0);
    single_sets(&relay, 1, 0, 3000);
    meet("interrupt", page_byte(&relay, 5), 1);
    for (size_t i = 0; i < sizeof step / sizeof step[0]; i++) {
        page_write(&relay, step[i].offset, step[i].byte);
        meet("flags", page_byte(&relay, 3), step[i].flags);
        meet("byte 5", page_byte(&relay, 5), step[i].rises);
    }
}

/* Records that 12 covers, by number: none, then flags, mask and fill. */
static struct relay page_record(size_t i)
{
    struct relay relay = full_relay(&plain_setting);

    relay.flags = i == 1 ? 8 : i == 2 ? 255 : 7;
    relay.mask = i == 3 ? 8 : i == 4 ? 255 : 7;
    if (i == 5)
        relay.fill = 13;
    return relay;
}

/* Refusals 15, 16 and 12 in their order; a refused call changes nothing. */
static void check_page_refusals(void)
{
    static const struct {
        uint64_t offset;
        int read, write;
    } table[] = {{0, 0, 16},  {1, 0, 16},  {2, 0, 16},  {3, 0, 0},   {4, 0, 0},
                 {5, 0, 16},  {6, 0, 16},  {7, 0, 0},   {8, 0, 16},  {31, 0, 16},
                 {32, 0, 16}, {63, 0, 16}, {64, 15, 15}, {70, 15, 15},
                 {259, 15, 15}, {4294967299, 15, 15},
                 {9223372036854775815u, 15, 15}, {UINT64_MAX, 15, 15}};

    for (size_t i = 0; i < 6; i++)
        for (size_t k = 0; k < sizeof table / sizeof table[0]; k++) {
            int later = i == 0 ? 0 : 12;
            int read = table[k].read ? table[k].read : later;
            int write = table[k].write ? table[k].write : later;
            struct relay relay = page_record(i), before = relay;
            uint8_t byte = 99;

            meet("read", relay_read(&relay, table[k].offset, &byte), read);
            meet("byte as before", !read || byte == 99, 1);
            meet("write", relay_write(&relay, table[k].offset, 1), write);
            if (write)
                meet("as before", memcmp(&relay, &before, sizeof relay), 0);
        }
}

/* Refusal 12 by flags and mask in the other calls; 7 is within the rule. */
static void check_page_records(void)
{
    for (size_t i = 0; i < 6; i++) {
        struct relay relay = page_record(i), before = relay;
        int16_t list[SET_NUMBERS] = {0};
        struct answer a;

        meet("sample", relay_sample(&relay, list, SET_NUMBERS, &a), i ? 12 : 0);
        meet("reset", relay_reset(&relay), i ? 12 : 0);
        meet("flags", relay.flags, before.flags);
        meet("mask", relay.mask, before.mask);
        if (i)
            meet("as before", memcmp(&relay, &before, sizeof relay), 0);
    }
}

/* ---- Lists with calls of the page ---- */

#define PAGED_LISTS 3000
#define PAGED_CALLS 30

/* The page as the answers of the calls alone tell it: bytes 0 to 4, and D and R
 * of each system. */
struct shadow {
    uint8_t byte[5];
    int32_t current[6];
};

/* Calls of the lists: page calls by read and write, those that are refused,
 * resets by the page, and each flag raised. */
static struct {
    unsigned reads, writes, refused, resets, raised[3];
} paged;

/* A sample call: masks of its answer, and flags by what is new in them. */
static void shadow_sample(struct shadow *p, enum refusal refusal,
                          const struct answer *a)
{
    uint8_t latched = p->byte[0], started = p->byte[1];

    if (refusal != ACCEPTED) {
        p->byte[3] |= 4;
        return;
    }
    p->byte[1] = p->byte[2] = 0;
    memset(p->current, 0, sizeof p->current);
    for (size_t y = 0; a->filling == 0 && y < SYSTEMS; y++) {
        p->byte[0] |= (uint8_t)(a->latched[y] << y);
        p->byte[1] |= (uint8_t)(a->system[y].start << y);
        p->byte[2] |= (uint8_t)(a->system[y].blocked << y);
        p->current[2 * y] = a->system[y].differential;
        p->current[2 * y + 1] = a->system[y].twice_restraint;
    }
    p->byte[3] |= (p->byte[1] & ~started) != 0 ? 1 : 0;
    p->byte[3] |= (p->byte[0] & ~latched) != 0 ? 2 : 0;
}

/* A byte of the page, by the shadow. */
static uint8_t shadow_byte(const struct shadow *p, size_t i)
{
    if (i < 5)
        return p->byte[i];
    if (i == 5)
        return (p->byte[3] & p->byte[4]) != 0;
    if (i < 8 || i >= 32)
        return 0;
    return (uint8_t)((uint32_t)p->current[(i - 8) / 4] >> (8 * (i % 4)));
}

/* An accepted write. */
static void shadow_write(struct shadow *p, const struct page_call *call)
{
    if (call->offset == 3)
        p->byte[3] &= (uint8_t)(255 - call->value);
    if (call->offset == 4)
        p->byte[4] = call->value % 8;
    if (call->offset == 7 && call->value == 1)
        p->byte[0] = 0;
}

/* What a page call on an admissible record is to answer. */
static int page_refusal(const struct page_call *call)
{
    uint64_t at = call->offset;

    if (at >= 64)
        return 15;
    return call->write && at != 3 && at != 4 && at != 7 ? 16 : 0;
}

/* A page call on the one relay; the other gets it if it is the reset write. */
static void paged_call(struct draw *d, struct relay *relay, struct relay *other,
                       struct shadow *p)
{
    struct page_call call = draw_page_call(d);
    int wanted = page_refusal(&call);
    uint8_t byte = 0;

    paged.refused += wanted != 0;
    if (call.write) {
        paged.writes++;
        meet("write", relay_write(relay, call.offset, call.value), wanted);
        if (wanted == 0)
            shadow_write(p, &call);
        if (call.offset == 7 && call.value == 1) {
            paged.resets++;
            page_write(other, 7, 1);
        }
        return;
    }
    paged.reads++;
    meet("read", relay_read(relay, call.offset, &byte), wanted);
    meet("byte", byte, wanted ? 0 : shadow_byte(p, call.offset));
}

/* The sample call of both relays: the same answer. */
static void paged_samples(struct relay *relay, struct relay *other,
                          const int16_t *list, size_t n, struct shadow *p)
{
    uint8_t flags = p->byte[3];
    struct answer a = {0}, b = {0};
    enum refusal refusal = relay_sample(relay, list, n, &a);

    meet("paged refusal", relay_sample(other, list, n, &b), refusal);
    meet("paged answer", answer_same(&a, &b), 1);
    shadow_sample(p, refusal, &a);
    for (unsigned i = 0; i < 3; i++)
        paged.raised[i] += (p->byte[3] & ~flags) >> i & 1;
}

/* The reset call of both relays. */
static void paged_reset(struct relay *relay, struct relay *other, struct shadow *p)
{
    meet("reset", relay_reset(relay), 0);
    meet("paged reset", relay_reset(other), 0);
    p->byte[0] = 0;
}

/* The whole page against the shadow, and one record as the other but for flags
 * and mask. */
static void meet_paged(const struct relay *relay, const struct relay *other,
                       const struct shadow *p)
{
    struct relay a = *relay, b = *other;
    int wrong = 0;

    for (size_t i = 0; i < PAGE_BYTES; i++) {
        uint8_t byte = 0;

        wrong += relay_read(relay, i, &byte) != ACCEPTED;
        wrong += byte != shadow_byte(p, i);
    }
    meet("bytes not as the answers tell", wrong, 0);
    a.flags = b.flags = a.mask = b.mask = 0;
    meet("paged record", memcmp(&a, &b, sizeof a), 0);
}

/* A list of calls on two fresh relays, on one of them with page calls. */
static void paged_list(struct draw *d, const struct scene *scene)
{
    int16_t list[2 * SET_NUMBERS] = {0};
    struct relay relay, other;
    struct shadow p = {0};

    start_near(&scene->setting, &relay);
    start_near(&scene->setting, &other);
    for (size_t k = 0; k < PAGED_CALLS; k++) {
        int64_t call = draw_from(d, 0, 99);

        for (int64_t n = draw_from(d, 0, 5); n > 0; n--)
            paged_call(d, &relay, &other, &p);
        turned_set(d, scene, k, list);
        if (call < 5)
            paged_reset(&relay, &other, &p);
        else
            paged_samples(&relay, &other, list,
                          call < 7 ? (size_t)draw_from(d, 0, 24) : SET_NUMBERS, &p);
        if (k % 3 == 2)
            meet_paged(&relay, &other, &p);
    }
}

/* Reads and writes, but for the reset write, alter no answer and of the record
 * only flags and mask; and the page is what the answers tell. */
static void check_paged_lists(void)
{
    struct draw d = {0x9A6E};
    struct scene scene;

    for (unsigned i = 0; i < PAGED_LISTS; i++) {
        draw_turned(&d, i, &scene);
        paged_list(&d, &scene);
    }
    for (unsigned i = 0; i < 3; i++)
        meet("flag raised", paged.raised[i] > 0, 1);
    meet("page calls refused", paged.refused > 0, 1);
    meet("resets by the page", paged.resets > 0, 1);
    printf("second: %u lists with %u page reads, %u writes, %u of them refused, %u "
           "resets; flags raised %u, %u, %u\n", PAGED_LISTS, paged.reads,
           paged.writes, paged.refused, paged.resets, paged.raised[0],
           paged.raised[1], paged.raised[2]);
}

/* The worked cases of the register page (document 02, card 2). */
static void check_page(void)
{
    check_page_bytes();
    check_page_reset();
    check_new_starts();
    check_new_trips();
    check_refused_flag();
    check_page_writes();
    check_interrupt();
    check_page_refusals();
    check_page_records();
}

/* ---- Common blocking ---- */

/* Currents of a phase over a cycle. They are on end 0 alone and its factor is 1,
 * so that matched numbers are samples, R is D, and a system starts when D is above
 * P. All but the first two are turned about after half a cycle, so that H2 is 0. */
enum form { NOTHING, UNLOADED, RIPPLE, LOW, CLEAN, HIGH, FORMS };

static const int32_t FORM[FORMS][WINDOW_SETS] = {
    [NOTHING] = {0},
    /* The same after half a cycle, so that D and H5 are 0. For h = 2, c is
     * 4 * 1560 = 6240 over 9360, to the nearest 1, and s 0. One set later or
     * earlier, c is 4 * 780 = 3120, to the nearest 0, and s 4 * 1351 = 5404, to the
     * nearest 1: H2 is 1 always. */
    [UNLOADED] = {1, 0, 0, -1, 0, 0, 1, 0, 0, -1, 0, 0},
    /* The signs of t[5k]. For h = 5, c is 2 * 1560 + 4 * 1351 + 4 * 780 = 11644 over
     * 9360, H5 1; for h = 1 it is 2 * 1560 - 4 * 1351 + 4 * 780 = 836, D 0. */
    [RIPPLE] = {1, -1, 1, 0, -1, 1, -1, 1, -1, 0, 1, -1},
    /* For h = 1, c is 2 * 1560 * 156 + 4 * 1351 * 135 + 4 * 780 * 78 = 1459620 over
     * 9360, D 156; for h = 5, with a minus in the middle, 540, H5 0. */
    [LOW] = {156, 135, 78, 0, -78, -135, -156, -135, -78, 0, 78, 135},
    /* The constants t. For h = 1, c is the sum of their squares, 2 * 2433600 +
     * 4 * 1825201 + 4 * 608400 = 14601604 over 9360, D 1560; for h = 5, with a minus
     * in the middle, -4, H5 0. At other sets c and s are so or 1351 and 780 in size,
     * and 1351 * 1351 + 780 * 780 = 1560 * 1560 + 1: D is 1560 always. */
    [CLEAN] = {1560, 1351, 780, 0, -780, -1351, -1560, -1351, -780, 0, 780, 1351},
    /* Six times these: c and s are six times theirs, D 9360 always. */
    [HIGH] = {9360, 8106, 4680, 0, -4680, -8106, -9360, -8106, -4680, 0, 4680, 8106}};

/* The sample of a phase at set k. A number a from FORMS on stands for 6a in the
 * first set of a cycle and zeros: there c is 1560 * 6a over 9360 and s is 0 for each
 * h, and D, H2, H5 are a. */
static int16_t form_sample(int form, size_t k)
{
    if (form < FORMS)
        return (int16_t)FORM[form][k % 12];
    return (int16_t)(k % 12 == 0 ? 6 * form : 0);
}

/* D, H2 and H5 of the forms: of LOW and RIPPLE and single peaks at the first set of
 * a cycle, of others at each. */
static void check_forms(void)
{
    static const struct {
        int form;
        size_t shifts;
        int32_t d, second, fifth;
    } table[] = {{NOTHING, 12, 0, 0, 0},  {UNLOADED, 12, 0, 1, 0},
                 {RIPPLE, 1, 0, 0, 1},    {LOW, 1, 156, 0, 0},
                 {CLEAN, 12, 1560, 0, 0}, {HIGH, 12, 9360, 0, 0},
                 {199, 1, 199, 199, 199}, {200, 1, 200, 200, 200},
                 {201, 1, 201, 201, 201}};

    for (size_t i = 0; i < sizeof table / sizeof table[0]; i++)
        for (size_t shift = 0; shift < table[i].shifts; shift++) {
            int32_t u[WINDOW_SETS];

            for (size_t k = 0; k < WINDOW_SETS; k++)
                u[k] = form_sample(table[i].form, k + shift);
            meet("form's D", amplitude(u, 1), table[i].d);
            meet("form's H2", amplitude(u, 2), table[i].second);
            meet("form's H5", amplitude(u, 5), table[i].fifth);
        }
    for (size_t k = 0; k < 24; k++)
        meet("unloaded", unloaded_sample(k), form_sample(UNLOADED, k));
}

/* Phases A, B, C, and which systems start and are blocked. P is 200. */
struct held {
    uint8_t flags;
    int16_t phase[SYSTEMS];
    uint8_t start[SYSTEMS], blocked[SYSTEMS];
};

static const struct held HELD[] = {
    /* A fault beside phases without load; a harmonic that is off doesn't count. */
    {5, {CLEAN, UNLOADED, NOTHING}, {1, 0, 0}, {0, 1, 0}},
    {5, {CLEAN, NOTHING, UNLOADED}, {1, 0, 0}, {0, 0, 1}},
    {7, {CLEAN, UNLOADED, RIPPLE}, {1, 0, 0}, {0, 1, 1}},
    {6, {CLEAN, RIPPLE, UNLOADED}, {1, 0, 0}, {0, 1, 0}},
    {5, {CLEAN, RIPPLE, CLEAN}, {1, 0, 1}, {0, 0, 0}},
    /* One with harmonics, its D one below P, at P, and one above it. */
    {5, {199, CLEAN, LOW}, {0, 1, 0}, {1, 0, 0}},
    {5, {200, CLEAN, LOW}, {0, 1, 0}, {1, 0, 0}},
    {5, {201, CLEAN, LOW}, {1, 1, 0}, {1, 1, 1}},
    {6, {199, LOW, CLEAN}, {0, 0, 1}, {1, 0, 0}},
    {6, {200, LOW, CLEAN}, {0, 0, 1}, {1, 0, 0}},
    {6, {201, LOW, CLEAN}, {1, 0, 1}, {1, 1, 1}},
    {7, {200, CLEAN, CLEAN}, {0, 1, 1}, {1, 0, 0}},
    {7, {201, CLEAN, CLEAN}, {1, 1, 1}, {1, 1, 1}},
    /* D of those held back doesn't matter. */
    {5, {201, NOTHING, NOTHING}, {1, 0, 0}, {1, 1, 1}},
    {5, {201, LOW, NOTHING}, {1, 0, 0}, {1, 1, 1}},
    {6, {200, NOTHING, NOTHING}, {0, 0, 0}, {1, 0, 0}},
    /* Each for itself without common blocking; none without a harmonic on. */
    {1, {201, CLEAN, LOW}, {1, 1, 0}, {1, 0, 0}},
    {2, {201, CLEAN, LOW}, {1, 1, 0}, {1, 0, 0}},
    {3, {201, CLEAN, UNLOADED}, {1, 1, 0}, {1, 0, 1}},
    {4, {201, CLEAN, UNLOADED}, {1, 1, 0}, {0, 0, 0}},
    /* D above P without harmonics. */
    {5, {CLEAN, CLEAN, LOW}, {1, 1, 0}, {0, 0, 0}},
    {7, {CLEAN, CLEAN, CLEAN}, {1, 1, 1}, {0, 0, 0}},
    /* Two or three with harmonics. */
    {5, {201, 200, CLEAN}, {1, 0, 1}, {1, 1, 1}},
    {6, {200, 201, CLEAN}, {0, 1, 1}, {1, 1, 1}},
    {5, {201, UNLOADED, CLEAN}, {1, 0, 1}, {1, 1, 1}},
    {7, {201, 300, CLEAN}, {1, 1, 1}, {1, 1, 1}},
    {5, {200, 199, CLEAN}, {0, 0, 1}, {1, 1, 0}},
    {5, {200, UNLOADED, CLEAN}, {0, 0, 1}, {1, 1, 0}},
    {7, {UNLOADED, RIPPLE, 200}, {0, 0, 0}, {1, 1, 1}}};

/* Accepted sets from number k on: the phases in their order, but from `turn` on. */
static void form_sets(struct relay *relay, const int16_t phase[SYSTEMS], size_t turn,
                      size_t k, size_t sets, struct answer *a)
{
    for (size_t end = k + sets; k < end; k++) {
        int16_t list[SET_NUMBERS] = {0};

        for (size_t y = 0; y < SYSTEMS; y++)
            list[y] = form_sample(phase[(y + turn) % SYSTEMS], k);
        meet("form set", relay_sample(relay, list, SET_NUMBERS, a), 0);
    }
}

/* The cases, each with every phase as A; M is 1, so that what starts and isn't
 * blocked trips. */
static void check_held(void)
{
    for (size_t i = 0; i < 3 * sizeof HELD / sizeof HELD[0]; i++) {
        const struct held *one = &HELD[i / 3];
        struct setting s = plain_setting;
        struct relay relay;
        struct answer a = {0};
        size_t offset;

        s.flags = one->flags;
        meet("start", relay_start(&s, &relay, &offset), 0);
        form_sets(&relay, one->phase, i % 3, 0, WINDOW_SETS, &a);
        for (size_t y = 0; y < SYSTEMS; y++) {
            size_t from = (y + i) % SYSTEMS;

            meet("held start", a.system[y].start, one->start[from]);
            meet("held blocked", a.system[y].blocked, one->blocked[from]);
            meet("held trip", a.latched[y], one->start[from] && !one->blocked[from]);
            meet("mask", page_byte(&relay, 2) >> y & 1, one->blocked[from]);
        }
    }
}

/* Phases A, B, C over some cycles: which systems are blocked at each full window,
 * and whether the first trips. M is 3, P 200, H 8,000. A peak of 200 has a D of 199
 * or 200 at each set, one of 1,000 at least 999. */
struct lasting {
    int16_t phase[SYSTEMS];
    uint8_t blocked[SYSTEMS], trip;
};

static const struct lasting LASTING[] = {
    {{CLEAN, UNLOADED, NOTHING}, {0, 1, 0}, 1},
    {{CLEAN, UNLOADED, UNLOADED}, {0, 1, 1}, 1},
    {{CLEAN, 200, NOTHING}, {0, 1, 0}, 1},
    {{CLEAN, 1000, NOTHING}, {1, 1, 1}, 0},
    {{HIGH, UNLOADED, NOTHING}, {0, 1, 0}, 1},
    {{HIGH, 1000, NOTHING}, {1, 1, 1}, 1}};

/* So many sets from number k on with a full window; the first system is latched
 * from the third of them on, if it trips. */
static void lasting_sets(struct relay *relay, const struct lasting *one, size_t k,
                         size_t sets)
{
    struct answer a = {0};

    for (size_t i = 1; i <= sets; i++) {
        form_sets(relay, one->phase, 0, k + i - 1, 1, &a);
        for (size_t y = 0; y < SYSTEMS; y++) {
            meet("blocked at each", a.system[y].blocked, one->blocked[y]);
            meet("latched", a.latched[y], y == 0 && one->trip && i >= 3);
        }
    }
}

/* M sets lead to a trip, and M sets after a reset to another; the high-set counts
 * for a system that is held back. */
static void check_held_trips(void)
{
    struct setting s = plain_setting;

    s.flags = BLOCK_ON_SECOND | COMMON_BLOCKING;
    s.confirm = 3;
    for (size_t i = 0; i < sizeof LASTING / sizeof LASTING[0]; i++) {
        struct relay relay;
        struct answer a;
        size_t offset;

        meet("start", relay_start(&s, &relay, &offset), 0);
        form_sets(&relay, LASTING[i].phase, 0, 0, WINDOW_SETS - 1, &a);
        lasting_sets(&relay, &LASTING[i], 11, 9);
        meet("reset", relay_reset(&relay), 0);
        lasting_sets(&relay, &LASTING[i], 20, 20);
    }
}

/* ---- Drawn windows under common blocking ---- */

#define DRAWN_WINDOWS 12000

/* Windows with common blocking: in all, those where document 01 blocks a system that
 * card 4 does not, those of them where it starts, those where a system is held back
 * by another alone; and systems with harmonics by D: P - 1, P, P + 1, zero. */
static struct {
    unsigned common, freed, freed_start, held, at[3], zero;
} drawn;

/* Whether a system has harmonics, by document 01. */
static int reads_harmonics(const struct setting *s, const struct measured *m)
{
    int64_t d = m->differential, second = m->second, fifth = m->fifth;

    return (s->flags % 2 == 1 && 100 * second > s->second * d) ||
           (s->flags / 2 % 2 == 1 && 100 * fifth > s->fifth * d);
}

/* Whether another system holds back system y: by document 02, card 4, with D above
 * P; by document 01, with any. */
static int reads_held(const struct setting *s, const struct measured m[SYSTEMS],
                      size_t y, int64_t above)
{
    for (size_t other = 0; other < SYSTEMS; other++)
        if (s->flags >= 4 && other != y && reads_harmonics(s, &m[other]) &&
            m[other].differential > above)
            return 1;
    return 0;
}

/* Counts a window with common blocking. */
static void count_drawn(const struct setting *s, const struct measured m[SYSTEMS])
{
    int freed = 0, start = 0, held = 0;

    for (size_t y = 0; y < SYSTEMS; y++) {
        int own = reads_harmonics(s, &m[y]), now = reads_held(s, m, y, s->pick_up);
        int more = !own && !now && reads_held(s, m, y, -1);
        int64_t above = m[y].differential - s->pick_up;

        if (own && above >= -1 && above <= 1)
            drawn.at[above + 1]++;
        drawn.zero += own && m[y].differential == 0;
        freed |= more;
        start |= more && m[y].start;
        held |= !own && now;
    }
    drawn.common++;
    drawn.freed += (unsigned)freed;
    drawn.freed_start += (unsigned)start;
    drawn.held += (unsigned)held;
}

/* Window number i: each number of ends, every other one without groups and filters;
 * common blocking in seven of eight; a wave, and on end 0 what an unloaded phase
 * has; P at a system's D or beside it, if it can be. */
static void draw_window(struct draw *d, unsigned i, struct setting *s,
                        int16_t list[WINDOW_NUMBERS])
{
    struct wave wave;

    draw_setting(d, (uint8_t)(2 + i % 3), s);
    s->flags = (uint8_t)(i % 8 == 0 ? draw_from(d, 0, 3) : draw_from(d, 4, 7));
    for (size_t z = 0; i % 2 && z < s->ends; z++)
        s->end[z].group = s->end[z].filter = 0;
    draw_wave(d, s, draw_spread(d, 200, 8000), (unsigned)draw_from(d, 0, 3), &wave);
    for (size_t k = 0; k < WINDOW_SETS; k++) {
        int16_t *set = list + SET_NUMBERS * k;

        wave_set(&wave, s, k, set);
        for (size_t y = 0; y < SYSTEMS; y++)
            set[y] = clip_sample(set[y] + unloaded_sample(k));
    }
    aim_pick_up(list, (size_t)draw_from(d, 0, 2), draw_from(d, -1, 1), s);
}

/* Tells what was drawn; each of it is there some hundred times. */
static void tell_drawn(void)
{
    const unsigned count[] = {drawn.freed, drawn.freed_start, drawn.held, drawn.at[0],
                              drawn.at[1], drawn.at[2], drawn.zero};

    for (size_t i = 0; i < sizeof count / sizeof count[0]; i++)
        meet("hundreds drawn", count[i] >= 200, 1);
    printf("second: %u windows drawn, %u with common blocking: 01 blocks more %u, of "
           "them a start %u; held by another %u; harmonics with D at P - 1, P, P + 1, "
           "0: %u, %u, %u, %u\n", DRAWN_WINDOWS, drawn.common, count[0], count[1],
           count[2], count[3], count[4], count[5], count[6]);
}

/* Blocking against the words of card 4: its own harmonics, or under common blocking
 * another system with harmonics and D above P. */
static void check_drawn_windows(void)
{
    struct draw d = {0xC4B10C};

    for (unsigned i = 0; i < DRAWN_WINDOWS; i++) {
        int16_t list[WINDOW_NUMBERS];
        struct measured m[SYSTEMS];
        struct setting s;

        draw_window(&d, i, &s, list);
        measure_list(&s, list, m);
        for (size_t y = 0; y < SYSTEMS; y++)
            meet("blocked", m[y].blocked, reads_harmonics(&s, &m[y]) ||
                                              reads_held(&s, m, y, s.pick_up));
        if (s.flags >= 4)
            count_drawn(&s, m);
    }
    tell_drawn();
}

/* Who holds back whom under common blocking (document 02, card 4). */
static void check_common_blocking(void)
{
    check_forms();
    check_held();
    check_held_trips();
    check_drawn_windows();
}

/* ---- Backup overcurrent ---- */

#define DRAWN_STEPS 30000
#define APART_LISTS 800

/* Both tables: entries by hand; each the least whole number by products; and by the
 * times of IEC 60255-151, k 13.5 and 80 seconds, at 600 sets a second. */
static void check_entries(void)
{
    static const uint32_t some[6][3] = {{1, 11, 81000},  {1, 20, 8100},
                                        {1, 200, 427},   {2, 11, 228572},
                                        {2, 20, 16000},  {2, 200, 121}};

    for (size_t i = 0; i < 6; i++)
        meet("entry by hand", curve_entry(some[i][0], some[i][1]), some[i][2]);
    for (int64_t j = 11; j <= 200; j++) {
        const int64_t top[2] = {81000, 4800000}, bottom[2] = {j - 10, j * j - 100};
        const double times = (double)j / 10;
        const double time[2] = {13.5 / (times - 1), 80 / (times * times - 1)};

        for (unsigned c = 0; c < CURVES; c++) {
            int64_t n = curve_entry(c + 1, (unsigned)j);
            double more = (double)n - 600 * time[c];

            meet("entry enough", n * bottom[c] >= top[c], 1);
            meet("entry least", (n - 1) * bottom[c] < top[c], 1);
            meet("entry by its time", more > -1e-6 && more < 1 - 1e-6, 1);
        }
    }
}

/* Elements of the steps: at j below 11, 11, to 199, 200, above; sums cleared and
 * stopped at the limit; trips; sums that stay at unused ends, at curve 0, while
 * filling, and at refused sets. */
static struct {
    unsigned tenths[5], moved[3], stays[4];
} steps;

/* j by the words of card 6: X goes so often into 10 A. */
static int64_t reads_tenths(const struct relay *relay, size_t z)
{
    int64_t a = 0, j = 0;

    for (size_t y = 0; y < SYSTEMS; y++) {
        int32_t u[WINDOW_SETS];
        int64_t one;

        for (size_t k = 0; k < WINDOW_SETS; k++)
            u[k] = relay->values[12 * k + 3 * z + y];
        one = defined_amplitude(u, 1);
        a = one > a ? one : a;
    }
    while ((j + 1) * relay->setting.overcurrent <= 10 * a)
        j++;
    return j;
}

/* The table entry by trying, and how often it goes into 1,000,000,000. */
static int64_t reads_growth(unsigned curve, int64_t j)
{
    int64_t top = curve == 1 ? 81000 : 4800000, n = 0, growth = 0;
    int64_t bottom = curve == 1 ? j - 10 : j * j - 100;

    while (n * bottom < top)
        n++;
    for (int64_t bit = (int64_t)1 << 24; bit != 0; bit >>= 1)
        if ((growth + bit) * n <= 1000000000)
            growth += bit;
    return growth;
}

/* An end in use after a measured set: its sum by the words of card 6. */
static int64_t reads_sum(const struct relay *before, const struct relay *relay,
                         size_t z)
{
    int64_t j = reads_tenths(relay, z), sum = before->sums[z];

    steps.tenths[j < 11 ? 0 : j == 11 ? 1 : j < 200 ? 2 : j == 200 ? 3 : 4]++;
    steps.moved[0] += j < 11 && sum != 0;
    if (j < 11)
        return 0;
    sum += reads_growth(relay->setting.curve, j > 200 ? 200 : j);
    steps.moved[1] += sum > 1000000000;
    return sum > 1000000000 ? 1000000000 : sum;
}

/* Sums and trips after a sample call, at each end. */
static void meet_elements(const struct relay *before, const struct relay *relay,
                          enum refusal refusal, const struct answer *a)
{
    const struct setting *s = &relay->setting;
    int full = refusal == ACCEPTED && relay->fill == WINDOW_SETS;

    for (size_t z = 0; z < MAX_ENDS; z++) {
        int moves = full && s->curve != 0 && z < s->ends;
        int64_t sum = moves ? reads_sum(before, relay, z) : before->sums[z];
        int trip = before->trips[z] || (moves && sum == 1000000000);

        meet("sum", relay->sums[z], sum);
        meet("trip", relay->trips[z], trip);
        meet("trip told", a->tripped[z], full && trip);
        steps.moved[2] += trip && !before->trips[z];
        if (!moves && sum != 0)
            steps.stays[!full ? 2 + (refusal != ACCEPTED) : s->curve == 0]++;
    }
}

/* X where 10 A of an end over twelve sets is just a multiple of it, or just not. */
static void aim_overcurrent(struct draw *d, const int16_t *list, struct setting *s)
{
    static const uint16_t tenths[8] = {10, 11, 11, 12, 100, 199, 200, 201};
    size_t z = (size_t)draw_from(d, 0, s->ends - 1);
    int32_t values[WINDOW_NUMBERS];
    int64_t x;

    for (size_t k = 0; k < WINDOW_SETS; k++)
        match_set(s, list + 12 * k, values + 12 * k);
    x = 10 * (int64_t)end_amplitude(values, z) / tenths[draw_from(d, 0, 7)];
    x += draw_from(d, 0, 1);
    if (s->curve != 0 && x >= 200 && x <= 4000)
        s->overcurrent = (uint16_t)x;
}

/* A relay before a step: its window from twelve sets of a wave, a thirteenth is the
 * step's; sums over their range, some near its end. */
static void draw_step(struct draw *d, unsigned i, struct relay *relay, int16_t *list)
{
    struct setting s;
    struct wave wave;

    draw_setting(d, (uint8_t)(2 + i % 3), &s);
    draw_overcurrent(d, (uint8_t)(i % 16 == 0 ? 0 : 1 + i / 3 % 2), &s);
    draw_wave(d, &s, draw_spread(d, 200, 60000), i / 6 % 4, &wave);
    for (size_t k = 0; k <= WINDOW_SETS; k++)
        wave_set(&wave, &s, k, list + 12 * k);
    aim_overcurrent(d, list + 12, &s);
    start_near(&s, relay);
    for (size_t k = 0; k < WINDOW_SETS; k++)
        match_set(&s, list + 12 * k, relay->values + 12 * k);
    relay->fill = (uint32_t)(draw_chance(d, 90) ? 12 : draw_from(d, 0, 11));
    for (size_t z = 0; z < MAX_ENDS; z++) {
        int64_t left = draw_spread(d, 0, draw_chance(d, 50) ? 10000000 : SUM_LIMIT);

        relay->sums[z] = (uint32_t)(draw_chance(d, 10) ? 0 : SUM_LIMIT - left);
        relay->trips[z] = (uint8_t)draw_chance(d, 20);
    }
}

/* A reset of a relay with sums and trips, by its call or by the page. */
static void meet_cleared(struct relay *relay, int by_page)
{
    meet("reset", by_page ? relay_write(relay, 7, 1) : relay_reset(relay), 0);
    for (size_t z = 0; z < MAX_ENDS; z++)
        meet("cleared", relay->sums[z] + relay->trips[z], 0);
}

/* Tells numbers of the steps; each of them is there some hundred times. */
static void tell_steps(const char *what, const unsigned *number, size_t n)
{
    printf("second: %u steps of overcurrent, %s", DRAWN_STEPS, what);
    for (size_t i = 0; i < n; i++) {
        meet("hundreds of steps", number[i] >= 200, 1);
        printf(" %u%s", number[i], i + 1 < n ? "," : "\n");
    }
}

/* Single sets against the words of card 6; some are refused, some resets follow. */
static void check_steps(void)
{
    int16_t list[13 * SET_NUMBERS], *set = list + 12 * SET_NUMBERS;
    struct draw d = {0x5CE6};
    struct relay relay;

    for (unsigned i = 0; i < DRAWN_STEPS; i++) {
        struct answer a = {0};
        struct relay before;
        enum refusal refusal;

        draw_step(&d, i, &relay, list);
        if (draw_chance(&d, 5))
            spoil_set(&d, &relay.setting, set);
        before = relay;
        refusal = relay_sample(&relay, set, draw_chance(&d, 3) ? 11 : 12, &a);
        meet_elements(&before, &relay, refusal, &a);
        if (i % 5 == 0)
            meet_cleared(&relay, i % 2);
    }
    tell_steps("j below 11, 11, to 199, 200, above:", steps.tenths, 5);
    tell_steps("sums cleared, stopped; trips:", steps.moved, 3);
    tell_steps("sums that stay, unused, off, filling, refused:", steps.stays, 4);
}

/* Measured sets of a steady j until the element of end 1 trips, from a sum on, X
 * being 200. */
static unsigned sets_to_trip(unsigned curve, int32_t j, uint32_t from)
{
    const struct wave wave = {.cosine = {{[4] = 20 * j + 10}}};
    struct setting s = plain_setting;
    int16_t list[SET_NUMBERS];
    struct relay relay;
    struct answer a = {0};
    unsigned sets = 0;
    size_t offset;

    s.curve = (uint8_t)curve;
    s.overcurrent = 200;
    meet("start", relay_start(&s, &relay, &offset), 0);
    relay.sums[1] = from;
    for (size_t k = 0; !a.tripped[1] && k < 10000; k++) {
        wave_set(&wave, &s, k, list);
        relay_sample(&relay, list, SET_NUMBERS, &a);
        sets += a.filling == 0;
    }
    meet("sum at the trip", relay.sums[1], 1000000000);
    meet("other end", relay.sums[0] + relay.trips[0], 0);
    return sets;
}

/* At each j of both curves: a trip at the least number of sets whose growth comes to
 * 1,000,000,000; where j is low, from a sum that leaves a thousand sets to grow. */
static void check_times(void)
{
    unsigned all = 0;

    for (unsigned i = 0; i < CURVES * 190; i++) {
        unsigned curve = 1 + i / 190, sets;
        int32_t j = 11 + (int32_t)i % 190;
        int64_t growth = reads_growth(curve, j), wanted = 0;
        int64_t left = j < 30 ? 1000 * growth - j : 1000000000;

        while (wanted * growth < left)
            wanted++;
        sets = sets_to_trip(curve, j, (uint32_t)(1000000000 - left));
        meet("sets to a trip", sets, wanted);
        all += sets;
    }
    printf("second: %u runs at steady j, %u measured sets\n", CURVES * 190, all);
}

/* The same calls on relays of each curve: the same but for sums and trips. */
static void apart_list(struct draw *d, const struct scene *scene)
{
    int16_t list[SET_NUMBERS];
    struct relay relay[3], bare[3];
    struct setting s = scene->setting;

    for (uint8_t c = 0; c < 3; c++) {
        draw_overcurrent(d, c, &s);
        start_near(&s, &relay[c]);
    }
    for (size_t k = 0; k < TURNED_CALLS; k++) {
        struct answer a[3] = {{0}};
        int reset = draw_chance(d, 4), refusal[3];

        turned_set(d, scene, k, list);
        for (size_t c = 0; c < 3; c++) {
            refusal[c] = reset ? relay_reset(&relay[c])
                               : relay_sample(&relay[c], list, SET_NUMBERS, &a[c]);
            bare[c] = relay[c];
            bare[c].setting.curve = 0;
            bare[c].setting.overcurrent = 0;
            memset(bare[c].sums, 0, sizeof bare[c].sums);
            memset(bare[c].trips, 0, sizeof bare[c].trips);
            memset(a[c].tripped, 0, sizeof a[c].tripped);
            meet("answer apart", answer_same(&a[c], &a[0]), 1);
            meet("record apart", memcmp(&bare[c], &bare[0], sizeof bare[0]), 0);
            meet("refusal apart", refusal[c], refusal[0]);
        }
    }
}

/* Answers of the differential element are the same whatever curve and X are. */
static void check_apart(void)
{
    struct draw d = {0xA9A27};
    struct scene scene;

    for (unsigned i = 0; i < APART_LISTS; i++) {
        draw_turned(&d, i, &scene);
        apart_list(&d, &scene);
    }
    printf("second: %u lists on each curve\n", APART_LISTS);
}

/* A record may hold any numbers at its unused ends: they are in no current. */
static void check_unused_places(void)
{
    struct draw d = {0x0DD};
    struct setting s;

    for (unsigned i = 0; i < 200; i++) {
        int32_t values[WINDOW_NUMBERS], bare[WINDOW_NUMBERS];
        struct measured m[SYSTEMS], wanted[SYSTEMS];

        draw_setting(&d, (uint8_t)(2 + i % 2), &s);
        for (size_t k = 0; k < WINDOW_NUMBERS; k++) {
            values[k] = (int32_t)draw_from(&d, -MATCHED_LIMIT, MATCHED_LIMIT);
            bare[k] = k % SET_NUMBERS < 3u * s.ends ? values[k] : 0;
        }
        measure_window(&s, values, m);
        measure_window(&s, bare, wanted);
        for (size_t y = 0; y < SYSTEMS; y++) {
            meet("D of ends in use", m[y].differential, wanted[y].differential);
            meet("H2 of ends in use", m[y].second, wanted[y].second);
            meet("H5 of ends in use", m[y].fifth, wanted[y].fifth);
            meet("R of ends in use", m[y].twice_restraint, wanted[y].twice_restraint);
        }
    }
}

/* ---- Slopes that fall ---- */

#define ALL_BYTES 9         /* a fault of the whole block: length or check */
#define SLOPE_DRAWS 300000

/* Slopes, and whether the second is less than the first. */
static const struct {
    uint16_t m1, m2;
    int falls;
} SLOPES[] = {{11, 10, 1}, {31, 30, 1},  {150, 149, 1}, {150, 10, 1}, {70, 30, 1},
              {10, 10, 0}, {40, 40, 0},  {150, 150, 0}, {10, 11, 0},  {149, 150, 0},
              {30, 70, 0}, {10, 150, 0}};

/* One fault of a setting: its refusal, and the number of so many bytes that makes it.
 * Length and check are of the whole block; marks and spare bytes are in no values.
 * The faults of 6 and 7 hold together too. */
struct wrong {
    int refusal, in_values;
    size_t at, width;
    uint32_t value;
};

static const struct wrong WRONG[] = {
    {1, 0, 0, ALL_BYTES, 511}, {1, 0, 0, ALL_BYTES, 0}, {2, 0, 0, ALL_BYTES, 0},
    {3, 0, 0, 1, 0x53},        {3, 0, 3, 1, 0x30},
    {4, 1, 4, 1, 1},           {4, 1, 4, 1, 5},
    {5, 1, 5, 1, 8},           {5, 1, 6, 1, 0},         {5, 0, 7, 1, 1},
    {5, 1, 8, 4, 0},           {5, 1, 12, 4, 15001},    {5, 1, 16, 4, 50001},
    {5, 1, 20, 1, 1},          {5, 1, 21, 1, 2},        {5, 0, 23, 1, 1},
    {5, 1, 24, 4, 0},          {5, 1, 32, 1, 12},       {5, 0, 34, 1, 255},
    {5, 1, 45, 1, 2},          {5, 1, 57, 1, 2},        {5, 0, 59, 1, 1},
    {5, 1, 60, 2, 99},         {5, 1, 62, 2, 30001},    {5, 1, 64, 2, 9},
    {5, 1, 64, 2, 151},        {5, 1, 64, 2, 0x4600},   {5, 1, 66, 2, 9},
    {5, 1, 66, 2, 151},        {5, 1, 66, 2, 0x0A00},   {5, 1, 68, 2, 1499},
    {5, 1, 70, 2, 51},         {5, 1, 72, 2, 9},        {5, 1, 74, 2, 199},
    {5, 1, 76, 1, 3},          {5, 0, 77, 1, 1},        {5, 0, 509, 1, 1},
    {6, 1, 28, 4, 50000},      {7, 1, 8, 4, 2703}};
#define WRONGS (sizeof WRONG / sizeof WRONG[0])

/* Calls, and in its order what each may refuse; from 21 on, 20 less, what a sample
 * block and its sets are refused for (documents 01 and 02, cards 2 and 7). */
enum call { READER, WRITER, STARTER, MEASURER, SAMPLER, RESETTER, PAGE_READER,
            PAGE_WRITER, CALLS };
static const uint8_t ORDER[CALLS][16] = {
    [READER] = {1, 2, 3, 4, 5, 6, 7},
    [WRITER] = {4, 5, 6, 7, 13},
    [STARTER] = {4, 5, 17, 6, 7},
    [MEASURER] = {1, 2, 3, 4, 5, 6, 7, 17, 21, 22, 23, 28, 29, 30, 31},
    [SAMPLER] = {12, 14, 10, 11},
    [RESETTER] = {12},
    [PAGE_READER] = {15, 12},
    [PAGE_WRITER] = {15, 16, 12}};

/* Numbers that apply, number n as bit n. */
typedef uint64_t numbers;
#define BIT(n) ((numbers)1 << (n))

/* A setting with faults: its block, the length handed over, the values in it, what
 * applies to either, and the lowest field that 5 is for in each. */
struct faulty {
    uint8_t block[BLOCK_BYTES];
    size_t length, ends;
    struct setting values;
    numbers of_block, of_values;
    size_t block_offset, values_offset;
};

/* Settings tried; answers 17 of the start, without 6 or 7 and with them; those of the
 * measuring call, with a sound sample block and with another; blocks with slopes that
 * fall written back; and refusals 12 by such slopes alone, by call. */
static struct {
    unsigned tried, start[2], measured[2], back, declined[CALLS];
} fallen;

/* The first refusal of a call among those that apply, or 0. */
static int first_of(enum call call, numbers applies)
{
    for (size_t i = 0; i < 16 && ORDER[call][i] != 0; i++)
        if (applies & BIT(ORDER[call][i]))
            return ORDER[call][i] % 20;
    return 0;
}

/* The lower of two offsets, of which 0 is none. */
static size_t lower_of(size_t a, size_t b)
{
    return a == 0 || (b != 0 && b < a) ? b : a;
}

/* Puts a fault into a block, and tells what applies by it. */
static void add_wrong(const struct wrong *w, struct faulty *f)
{
    size_t offset = w->refusal == 5 ? w->at : 0;

    f->of_block |= BIT(w->refusal);
    f->block_offset = lower_of(f->block_offset, offset);
    if (w->in_values) {
        f->of_values |= BIT(w->refusal);
        f->values_offset = lower_of(f->values_offset, offset);
    }
    if (w->refusal == 1)
        f->length = w->value;
    for (size_t i = 0; w->width < ALL_BYTES && i < w->width; i++)
        f->block[w->at + i] = (uint8_t)(w->value >> (8 * i));
}

/* The plain setting of so many ends with a curve on, slopes of the list, and up to
 * two faults. */
static void make_faulty(size_t ends, size_t slopes, const struct wrong *a,
                        const struct wrong *b, struct faulty *f)
{
    struct setting s = plain_setting;

    s.ends = (uint8_t)ends;
    for (size_t z = 2; z < ends; z++)
        s.end[z] = s.end[0];
    s.curve = 1;
    s.overcurrent = 300;
    s.slope1 = SLOPES[slopes].m1;
    s.slope2 = SLOPES[slopes].m2;
    memset(f, 0, sizeof *f);
    f->length = BLOCK_BYTES;
    f->ends = ends;
    f->of_block = f->of_values = SLOPES[slopes].falls ? BIT(17) : 0;
    lay_setting(&s, f->block);
    if (a != NULL)
        add_wrong(a, f);
    if (b != NULL)
        add_wrong(b, f);
    take_setting(f->block, &f->values);
    seal_block(f->block);
    if (f->of_block & BIT(2))
        f->block[510] ^= 1;
}

/* The reader; and what it reads, if anything, is written back to the same bytes. */
static void meet_reader(const struct faulty *f)
{
    int wanted = first_of(READER, f->of_block);
    uint8_t back[BLOCK_BYTES];
    struct setting s;
    size_t offset;

    meet("slopes read", read_setting(f->block, f->length, &s, &offset), wanted);
    meet("offset read", (int64_t)offset, wanted == 5 ? (int64_t)f->block_offset : 0);
    if (wanted != 0)
        return;
    meet("written back", write_setting(&s, back, sizeof back, &offset), 0);
    meet("same bytes", memcmp(back, f->block, sizeof back), 0);
    fallen.back += (f->of_block & BIT(17)) != 0;
}

/* Start and writer on the values. */
static void meet_judged(const struct faulty *f)
{
    int start = first_of(STARTER, f->of_values);
    int write = first_of(WRITER, f->of_values);

    meet_values(&f->values, start, write,
                start == 5 ? (int64_t)f->values_offset : 0);
    if (start == 17)
        fallen.start[(f->of_values & (BIT(6) | BIT(7))) != 0]++;
}

/* A sample block of one set with the faults told, and the length handed over. */
static size_t make_samples(numbers faults, uint8_t block[BLOCK_BYTES])
{
    int16_t list[SET_NUMBERS] = {0};

    list[2] = faults & BIT(30) ? -32001 : 0;
    list[11] = faults & BIT(31) ? 1 : 0;
    write_samples(block, BLOCK_BYTES, 0, list, SET_NUMBERS);
    block[0] ^= (faults & BIT(23)) != 0;
    block[1] = faults & BIT(28) ? 22 : 1;
    block[509] = (faults & BIT(29)) != 0;
    seal_block(block);
    block[511] ^= (faults & BIT(22)) != 0;
    return faults & BIT(21) ? BLOCK_BYTES - 1 : BLOCK_BYTES;
}

/* The measuring call, with a sound sample block and with others. */
static void meet_measured(const struct faulty *f)
{
    static const numbers faults[] = {
        0,        BIT(21), BIT(22), BIT(23), BIT(28), BIT(29), BIT(30), BIT(31),
        BIT(21) | BIT(22), BIT(22) | BIT(23), BIT(23) | BIT(28), BIT(28) | BIT(29),
        BIT(29) | BIT(30), BIT(30) | BIT(31)};

    for (size_t i = 0; i < sizeof faults / sizeof faults[0]; i++) {
        uint8_t samples[BLOCK_BYTES];
        size_t length = make_samples(faults[i], samples);
        int wanted;

        if (f->ends == MAX_ENDS && (faults[i] & BIT(31)))
            continue;
        wanted = first_of(MEASURER, f->of_block | faults[i]);
        meet("slopes measured",
             measure_block(f->block, f->length, samples, length),
             wanted ? wanted : 100);
        if (wanted == 17)
            fallen.measured[faults[i] != 0]++;
    }
}

/* A call on a record: what applies to its setting counts under 12, and at 12 all is
 * left. */
static void meet_record(enum call call, int found, numbers applies,
                        const struct relay *relay, const struct relay *before)
{
    numbers setting = applies & (BIT(4) | BIT(5) | BIT(6) | BIT(7) | BIT(17));
    int wanted = first_of(call, setting ? applies | BIT(12) : applies);

    meet("call on slopes", found, wanted);
    if (wanted == 12)
        meet("record left", memcmp(relay, before, sizeof *relay), 0);
    fallen.declined[call] += wanted == 12 && setting == BIT(17);
}

/* Sample calls on a record: sound, and with what 14, 10 and 11 decline. */
static void meet_sampler(const struct relay *before, numbers values)
{
    static const numbers faults[] = {0,       BIT(14),           BIT(10),
                                     BIT(11), BIT(14) | BIT(10), BIT(10) | BIT(11)};
    struct answer a;

    for (size_t i = 0; i < sizeof faults / sizeof faults[0]; i++) {
        int16_t list[SET_NUMBERS + 1] = {0};
        struct relay relay = *before;
        size_t n = faults[i] & BIT(14) ? SET_NUMBERS + 1 : SET_NUMBERS;

        if (before->setting.ends == MAX_ENDS && (faults[i] & BIT(11)))
            continue;
        list[0] = faults[i] & BIT(10) ? 32001 : 0;
        list[11] = faults[i] & BIT(11) ? -1 : 0;
        meet_record(SAMPLER, relay_sample(&relay, list, n, &a), values | faults[i],
                    &relay, before);
    }
}

/* Reads and writes of the page on a record: in it, past it, and at other bytes. */
static void meet_pages(const struct relay *before, numbers values)
{
    static const struct {
        uint64_t offset;
        numbers read, write;
    } table[] = {{3, 0, 0},        {4, 0, 0},  {7, 0, 0},
                 {0, 0, BIT(16)},  {63, 0, BIT(16)},
                 {64, BIT(15), BIT(15) | BIT(16)},
                 {4294967299, BIT(15), BIT(15) | BIT(16)}};

    for (size_t i = 0; i < sizeof table / sizeof table[0]; i++) {
        struct relay relay = *before;
        uint8_t byte = 99;

        meet_record(PAGE_READER, relay_read(&relay, table[i].offset, &byte),
                    values | table[i].read, &relay, before);
        meet("byte left", byte == 99, (values | table[i].read) != 0);
        meet_record(PAGE_WRITER, relay_write(&relay, table[i].offset, 1),
                    values | table[i].write, &relay, before);
    }
}

/* Every call on a full record that holds the values. */
static void meet_calls(const struct faulty *f, const struct relay *full)
{
    struct relay before = *full, relay;

    before.setting = f->values;
    relay = before;
    meet_record(RESETTER, relay_reset(&relay), f->of_values, &relay, &before);
    meet_sampler(&before, f->of_values);
    meet_pages(&before, f->of_values);
}

/* Whether two faults are of the same field. */
static int same_place(const struct wrong *a, const struct wrong *b)
{
    return a->at == b->at && a->width == b->width && a->width < ALL_BYTES;
}

/* Slopes of the list with no fault, each fault and each two, for 2, 3 and 4 ends. */
static void check_slope_faults(void)
{
    struct relay full = full_relay(&plain_setting);
    struct faulty f;

    for (size_t i = 0; i < 3 * sizeof SLOPES / sizeof SLOPES[0]; i++)
        for (size_t a = 0; a <= WRONGS; a++)
            for (size_t b = a == WRONGS ? a : a + 1; b <= WRONGS; b++) {
                const struct wrong *one = a < WRONGS ? &WRONG[a] : NULL;
                const struct wrong *other = b < WRONGS ? &WRONG[b] : NULL;

                if (one != NULL && other != NULL && same_place(one, other))
                    continue;
                make_faulty(2 + i % 3, i / 3, one, other, &f);
                meet_reader(&f);
                meet_judged(&f);
                meet_measured(&f);
                meet_calls(&f, &full);
                fallen.tried++;
            }
    printf("second: %u settings by slopes and faults; start 17 %u, with 6 or 7 %u; "
           "measuring call 17 %u, with a wrong sample block %u; written back %u; 12 by "
           "slopes alone, sample %u, reset %u, read %u, write %u\n", fallen.tried,
           fallen.start[0], fallen.start[1], fallen.measured[0], fallen.measured[1],
           fallen.back, fallen.declined[SAMPLER], fallen.declined[RESETTER],
           fallen.declined[PAGE_READER], fallen.declined[PAGE_WRITER]);
}

/* Every m1 and m2 of the range; m2 goes up and comes to m1 on its way. */
static void check_every_slope(void)
{
    uint8_t block[BLOCK_BYTES], back[BLOCK_BYTES], samples[BLOCK_BYTES];
    struct setting s = plain_setting, values;
    struct relay full = full_relay(&s), fresh;
    size_t offset;

    write_samples(samples, sizeof samples, 0, NULL, 0);
    for (s.slope1 = 10; s.slope1 <= 150; s.slope1++) {
        int falls = 1;

        for (s.slope2 = 10; s.slope2 <= 150; s.slope2++) {
            if (s.slope2 == s.slope1)
                falls = 0;
            lay_setting(&s, block);
            meet("read", read_setting(block, BLOCK_BYTES, &values, &offset), 0);
            meet("write", write_setting(&values, back, BLOCK_BYTES, &offset), 0);
            meet("same bytes", memcmp(back, block, BLOCK_BYTES), 0);
            meet("start", relay_start(&s, &fresh, &offset), falls ? 17 : 0);
            meet("measured", measure_block(block, BLOCK_BYTES, samples, BLOCK_BYTES),
                 falls ? 17 : 100);
            full.setting = s;
            meet("reset", relay_reset(&full), falls ? 12 : 0);
        }
    }
}

/* Systems with R above 2Q: those that start on a setting that can be started, those
 * of them on slopes that are the same; those that would start on slopes that fall,
 * and of them not above the line of m1. */
static struct {
    unsigned started, same, falling, below;
} eager;

/* Whether D is above the line of m1 from P on. */
static int above_line(const struct setting *s, int64_t d, int64_t r)
{
    return 200 * d > 200 * (int64_t)s->pick_up + s->slope1 * (r - s->pick_up);
}

/* Slopes in turn that rise, are the same and fall. */
static void draw_turn_slopes(struct draw *d, unsigned i, struct setting *s)
{
    draw_falling(d, s);
    if (i % 3 == 2)
        return;
    s->slope1 = i % 3 == 0 ? s->slope2 : s->slope1;
    s->slope2 = (uint16_t)(i % 3 == 0 ? draw_from(d, s->slope1, 150) : s->slope1);
}

/* A system with R above 2Q, D about its limit or about the line. */
static void meet_eager(struct draw *d, const struct setting *s)
{
    int64_t p = s->pick_up, knee = 2 * (int64_t)s->third_section;
    int64_t r = knee + (draw_chance(d, 20) ? 1 : draw_spread(d, 1, 3000000));
    int64_t line = 200 * p + s->slope1 * (r - p);
    int64_t limit = 200 * p + s->slope1 * (knee - p) + s->slope2 * (r - knee);
    int64_t now = (draw_chance(d, 50) ? line : limit) / 200 + draw_from(d, -1, 2);
    int on = starts(s, now, r), above = above_line(s, now, r);
    struct relay relay;
    size_t offset;

    if (relay_start(s, &relay, &offset) == ACCEPTED) {
        meet("a start is above the line", on && !above, 0);
        eager.started += (unsigned)on;
        if (s->slope1 == s->slope2)
            meet("the line is the limit", on, above);
        eager.same += on && s->slope1 == s->slope2;
    } else {
        eager.falling += (unsigned)on;
        eager.below += on && !above;
    }
}

/* Why a relay doesn't start on slopes that fall: it would start at heavy through
 * current where a relay on m1 alone would not. P 200, Q 4,000, R 10,000: at m1 70
 * and m2 30 the limit is 200 + (70 * 7,800 + 30 * 2,000) / 200 = 3,230, the line of
 * m1 200 + 70 * 9,800 / 200 = 3,630. */
static void check_eager(void)
{
    struct setting s = plain_setting;
    struct draw d = {0xEA6E2};

    s.slope1 = 70;
    s.slope2 = 30;
    meet("falling", starts(&s, 3231, 10000) && !starts(&s, 3230, 10000), 1);
    meet("below the line", above_line(&s, 3630, 10000), 0);
    s.slope2 = 70;
    meet("the same", starts(&s, 3631, 10000) && !starts(&s, 3630, 10000), 1);
    meet("above the line", above_line(&s, 3631, 10000), 1);
    for (unsigned i = 0; i < SLOPE_DRAWS; i++) {
        if (i % 100 == 0)
            draw_setting(&d, (uint8_t)(2 + i / 100 % 3), &s);
        s.pick_up = (uint16_t)draw_from(&d, 100, 2500);
        s.third_section = (uint16_t)draw_from(&d, 1500, 10000);
        draw_turn_slopes(&d, i, &s);
        meet_eager(&d, &s);
    }
    meet("thousands that start", eager.started > 5000 && eager.same > 5000, 1);
    meet("thousands that would start below the line", eager.below > 5000, 1);
    printf("second: %u systems with R above 2Q: can be started %u start, %u of them at "
           "slopes the same; slopes that fall %u would, %u of them not above the line "
           "of m1\n", SLOPE_DRAWS, eager.started, eager.same, eager.falling,
           eager.below);
}

/* Slopes that fall (document 02, card 7). */
static void check_slopes(void)
{
    check_slope_faults();
    check_every_slope();
    check_eager();
}

/* ---- The measuring call ---- */

#define MEASURED_PAIRS 16000
#define PAIR_ROOM 520
#define ANSWERS 108         /* refusals, and 100 to 107 */

/* Both blocks of a measuring call and their lengths. */
struct pair {
    uint8_t setting[PAIR_ROOM], samples[PAIR_ROOM];
    size_t setting_length, samples_length;
};

/* The measuring call by the other calls, one set after another. */
static uint32_t by_calls(const struct pair *p)
{
    int16_t list[BLOCK_NUMBERS];
    struct setting s;
    struct relay relay;
    struct answer answer;
    size_t offset, n = 0;
    uint32_t r = read_setting(p->setting, p->setting_length, &s, &offset);

    if (r == ACCEPTED)
        r = relay_start(&s, &relay, &offset);
    if (r == ACCEPTED)
        r = read_samples(p->samples, p->samples_length, list, &n);
    for (size_t k = 0; r == ACCEPTED && k < n; k += SET_NUMBERS)
        r = relay_sample(&relay, list + k, SET_NUMBERS, &answer);
    if (r != ACCEPTED)
        return r;
    return 100u + relay.latches[0] + 2u * relay.latches[1] + 4u * relay.latches[2];
}

/* Damage number kind to a setting block, which leads to one of refusals 1 to 7. */
static void spoil_setting(struct draw *d, unsigned kind, struct pair *p)
{
    const struct field *f = &FIELD[draw_from(d, 1, FIELDS - 1)];
    uint32_t aim = (uint32_t)draw_from(d, 1, 50000);

    if (kind == 1)
        p->setting_length = (size_t)draw_from(d, 0, PAIR_ROOM);
    else if (kind == 2)
        p->setting[draw_from(d, 0, 511)] ^= (uint8_t)draw_from(d, 1, 255);
    else if (kind == 3)
        p->setting[draw_from(d, 0, 3)] ^= (uint8_t)draw_from(d, 1, 255);
    else if (kind == 4)
        p->setting[4] = (uint8_t)draw_from(d, 0, 255);
    else if (kind == 5 && draw_chance(d, 50))
        put_field(p->setting, f, draw_chance(d, 50) ? f->low - 1 : f->high + 1);
    else if (kind == 5)
        p->setting[draw_from(d, 5, 509)] ^= (uint8_t)draw_from(d, 1, 255);
    else
        put_field(p->setting, &FIELD[draw_chance(d, 50) ? 3 : 9], aim);
    if (kind > 2)
        seal_block(p->setting);
}

/* Damage to a sample block, which leads to one of refusals 1, 2, 3, 8, 9. */
static void spoil_samples(struct draw *d, unsigned kind, struct pair *p)
{
    if (kind == 1)
        p->samples_length = (size_t)draw_from(d, 0, PAIR_ROOM);
    else if (kind == 2)
        p->samples[draw_from(d, 0, 511)] ^= (uint8_t)draw_from(d, 1, 255);
    else if (kind == 3)
        p->samples[0] ^= (uint8_t)draw_from(d, 1, 255);
    else if (kind == 4)
        p->samples[1] = (uint8_t)draw_from(d, 22, 255);
    else
        p->samples[draw_chance(d, 50) ? 2 : draw_from(d, 3, 509)] = 1;
    if (kind > 2)
        seal_block(p->samples);
}

/* Pair number i: a scene of up to 21 sets with some that 10 or 11 decline in one of
 * five; in two of five damage to one block or both. P at a system's D, or beside it,
 * in one of four; slopes that fall in another. */
static void draw_pair(struct draw *d, unsigned i, struct pair *p)
{
    size_t sets = (size_t)draw_from(d, draw_chance(d, 80) ? 15 : 0, BLOCK_SETS);
    int16_t list[BLOCK_NUMBERS] = {0};
    struct scene scene;

    draw_turned(d, i, &scene);
    for (size_t k = 0; k < sets; k++) {
        turned_set(d, &scene, k, list + SET_NUMBERS * k);
        for (size_t j = 0; i % 5 != 0 && j < SET_NUMBERS; j++)
            list[SET_NUMBERS * k + j] = j < 3u * scene.setting.ends
                ? clip_sample(list[SET_NUMBERS * k + j]) : 0;
    }
    if (i % 4 == 0)
        aim_pick_up(list, (size_t)draw_from(d, 0, 2), draw_from(d, -1, 1),
                    &scene.setting);
    if (i % 4 == 3)
        draw_falling(d, &scene.setting);
    memset(p, 0, sizeof *p);
    lay_setting(&scene.setting, p->setting);
    write_samples(p->samples, BLOCK_BYTES, 0, list, SET_NUMBERS * sets);
    p->setting_length = p->samples_length = BLOCK_BYTES;
    if (i % 5 == 1 || i % 25 == 2)
        spoil_setting(d, (unsigned)draw_from(d, 1, 6), p);
    if (i % 5 == 2 || i % 25 == 1)
        spoil_samples(d, (unsigned)draw_from(d, 1, 5), p);
}

/* Drawn pairs against the other calls; each answer comes up some dozens of times. */
static void check_measured_pairs(void)
{
    static const uint8_t met[] = {1, 2, 3, 4, 5, 6, 7, 8, 9, 10, 11, 17, 100, 101,
                                  102, 103, 104, 105, 106, 107};
    unsigned count[ANSWERS] = {0}, refused = 0, latched = 0;
    struct draw d = {0x9A125};
    struct pair p;

    for (unsigned i = 0; i < MEASURED_PAIRS; i++) {
        uint32_t found, wanted;

        draw_pair(&d, i, &p);
        wanted = by_calls(&p);
        found = measure_block(p.setting, p.setting_length, p.samples,
                              p.samples_length);
        meet("measured pair", found, wanted);
        count[wanted]++;
        refused += wanted < 100;
        latched += wanted > 100;
    }
    for (size_t i = 0; i < sizeof met; i++)
        meet("dozens of an answer", count[met[i]] >= 24, 1);
    printf("second: %u pairs measured, %u latched, %u refused: ", MEASURED_PAIRS,
           latched, refused);
    for (size_t i = 0; met[i] < 100; i++)
        printf("%u:%u%s", met[i], count[met[i]], met[i + 1] < 100 ? " " : "\n");
}

int main(void)
{
    check_factors();
    check_matching();
    check_matched_halves();
    check_groups();
    check_amplitudes();
    check_amplitude_halves();
    check_characteristic();
    check_refusals();
    check_records();
    check_setting_block();
    check_first_fault();
    check_setting_writer();
    check_sample_block();
    check_sample_reader();
    check_bench();
    check_trip();
    check_turned_singles();
    check_turned_lists();
    check_page();
    check_paged_lists();
    check_common_blocking();
    check_entries();
    check_steps();
    check_times();
    check_apart();
    check_unused_places();
    check_slopes();
    check_measured_pairs();
    if (failures != 0) {
        printf("second: selftest %u of %u checks fail\n", failures, checks);
        return 1;
    }
    printf("second: selftest %u checks\n", checks);
    return 0;
}
