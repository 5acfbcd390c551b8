/* Healthy banks, without and with neutral current (document 01, "A healthy bank";
 * document 02, card 8), on settings of every number of ends, group and filter. From a
 * fresh relay their sets are sampled, refused sets and resets strewn between: nothing
 * starts or latches, D is at most 45, 69, 91 for 2, 3, 4 ends, and 12 never comes.
 * Then banks pushed to the largest D that a search finds; banks by wrong rules, which
 * must go past these limits; and cases worked by hand. Prints what there was. */
#include "draw.h"

#include <stdio.h>
#include <stdlib.h>
#include <string.h>

#define SETTINGS 4500
#define SETS 24             /* of a list, up to MOST_SETS */
#define MOST_SETS 36
#define PUSHED 960          /* settings on which banks are pushed */
#define TRIES 400           /* for each set of them, two ways */
#define WRONGED 1500        /* settings on which wrong rules are tried */

static const int32_t LIMIT[MAX_ENDS + 1] = {0, 0, 45, 69, 91};

/* What a run has, without and with neutral current: banks and their sets, how many of
 * them pushed, and the largest D by ends, drawn and pushed. Of the sets with neutral
 * current, those that are a healthy bank's by 01 with no w at all. Refused sets (14,
 * 10, 11) and resets between; by end the groups met; and by ends, filter and group the
 * ends of sets with neutral current, where the filter is off with some at that end.
 * The largest matched number; the factors met; and samples that are one off and within
 * 1/2 all the same. */
static struct {
    unsigned long banks[2], sets[2], pushed[2], no_w, between[4], halfway;
    unsigned long groups[MAX_ENDS][12], met[3][2][12];
    int32_t most[2][3][2], matched;
    uint64_t lowest, highest;
} told = {.lowest = FACTOR_HIGHEST};

/* Which bank is at work, for what goes wrong. */
static const char *work = "";
static size_t work_number;

/* Ends the run with a message when something is not as it must be. */
static void must(int right, const char *what)
{
    if (right)
        return;
    fprintf(stderr, "banks: %s %zu: %s\n", work, work_number, what);
    exit(1);
}

/* ---- Settings ---- */

/* Factors up to the highest: just 16, or a little below. */
static void draw_top(struct draw *d, struct setting *s)
{
    s->power = (uint32_t)(draw_chance(d, 30) ? 1351 : draw_from(d, 1, 50000));
    for (size_t z = 0; z < s->ends; z++) {
        aim_factor(d, s->power, FACTOR_HIGHEST - draw_spread(d, 1, 30000),
                   &s->end[z]);
        if (s->power == 1351 && draw_chance(d, 60)) {
            s->end[z].voltage = 780;
            s->end[z].current = 16000;
        }
    }
}

/* Filters of setting number i: all off in every other one, then each mix in turn. */
static void put_filters(size_t i, struct setting *s)
{
    for (size_t z = 0; z < s->ends; z++)
        s->end[z].filter = i % 2 == 0 ? 0 : i / 2 >> z & 1;
}

/* An autotransformer's, as in 001, 3.4.2: groups 0, filters off. */
static void put_node(struct setting *s)
{
    for (size_t z = 0; z < s->ends; z++)
        s->end[z].group = s->end[z].filter = 0;
}

/* Setting number i, one that a relay starts on: 2, 3, 4 ends in turn, filters as
 * above, any groups, some as an autotransformer's; any factors or high ones, so many
 * of a hundred; mostly most sensitive; some with overcurrent on. */
static void draw_case(struct draw *d, size_t i, unsigned top, struct setting *s)
{
    struct relay relay;
    size_t offset;

    do {
        draw_setting(d, (uint8_t)(2 + i % 3), s);
        put_filters(i / 3, s);
        if (draw_chance(d, 8))
            put_node(s);
        if (draw_chance(d, top))
            draw_top(d, s);
        else if (draw_chance(d, 15))
            draw_eighths(d, s);
        if (draw_chance(d, 85))
            most_sensitive(s);
        if (draw_chance(d, 10))
            draw_overcurrent(d, (uint8_t)draw_from(d, 1, CURVES), s);
    } while (relay_start(s, &relay, &offset) != ACCEPTED);
}

/* Counts the groups by end, and the factors, of a setting. */
static void count_setting(const struct setting *s)
{
    for (size_t z = 0; z < s->ends; z++) {
        uint64_t factor = matching_factor(s, z);

        told.groups[z][s->end[z].group]++;
        told.lowest = factor < told.lowest ? factor : told.lowest;
        told.highest = factor > told.highest ? factor : told.highest;
    }
}

/* ---- Lists of calls ---- */

/* Whether a record has no latch. */
static int no_latch(const struct relay *relay)
{
    return !relay->latches[0] && !relay->latches[1] && !relay->latches[2];
}

/* Keeps the largest D, and the largest matched number of the record. */
static void keep_most(const struct relay *relay, int32_t d, int neutral, int pushed)
{
    int32_t *most = &told.most[pushed][relay->setting.ends - 2][neutral];

    *most = d > *most ? d : *most;
    for (size_t i = 0; i < WINDOW_NUMBERS; i++)
        if (abs(relay->values[i]) > told.matched)
            told.matched = abs(relay->values[i]);
}

/* A sample call of a healthy set, and what demand 3 says of its answer. */
static void call_healthy(struct relay *relay, const int16_t *list, int neutral,
                         int pushed)
{
    struct answer a;

    must(relay_sample(relay, list, SET_NUMBERS, &a) == ACCEPTED,
         "a healthy set is refused");
    must(no_latch(relay), "a record has a latch");
    for (size_t y = 0; a.filling == 0 && y < SYSTEMS; y++) {
        must(!a.system[y].start, "a healthy bank starts");
        must(!a.latched[y], "a healthy bank trips");
        must(a.system[y].differential <= LIMIT[relay->setting.ends],
             "a D is above its limit");
        keep_most(relay, a.system[y].differential, neutral, pushed);
    }
}

/* A sample call of the wrong length, or of a set that is spoilt. */
static void call_refused(struct draw *d, struct relay *relay, const int16_t *set)
{
    static const uint8_t length[5] = {0, 1, 11, 13, 24};
    int16_t list[2 * SET_NUMBERS] = {0};
    enum refusal refusal;
    struct answer a;

    memcpy(list, set, SET_NUMBERS * sizeof list[0]);
    if (draw_chance(d, 50)) {
        refusal = relay_sample(relay, list, length[draw_from(d, 0, 4)], &a);
        must(refusal == LIST_WRONG, "a list of the wrong length isn't refused with 14");
        told.between[0]++;
    } else {
        spoil_set(d, &relay->setting, list);
        refusal = relay_sample(relay, list, SET_NUMBERS, &a);
        must(refusal == SAMPLE_BEYOND || refusal == UNUSED_END_WRONG,
             "a spoilt set isn't refused with 10 or 11");
        told.between[refusal == SAMPLE_BEYOND ? 1 : 2]++;
    }
}

/* A call between the healthy sets: one that is refused, or a reset. */
static void call_between(struct draw *d, struct relay *relay, const int16_t *set)
{
    if (draw_chance(d, 65)) {
        call_refused(d, relay, set);
    } else {
        must(relay_reset(relay) == ACCEPTED, "a reset is refused");
        told.between[3]++;
    }
    must(no_latch(relay), "a record has a latch");
}

/* A list of calls from a fresh relay: these sets in turn, others strewn between. */
static void call_list(struct draw *d, const struct setting *s,
                      int16_t sets[][SET_NUMBERS], size_t n, int neutral, int pushed)
{
    struct relay relay;
    size_t offset;

    must(relay_start(s, &relay, &offset) == ACCEPTED, "a relay doesn't start");
    must(no_latch(&relay), "a fresh relay has a latch");
    for (size_t i = 0; i < n; i++) {
        while (draw_chance(d, 15))
            call_between(d, &relay, sets[i]);
        call_healthy(&relay, sets[i], neutral, pushed);
    }
}

/* ---- Drawn banks ---- */

/* Whether some end of a set has neutral current. */
static int has_neutral(const struct setting *s, const struct currents *c)
{
    for (size_t z = 0; z < s->ends; z++)
        if (limb_sum(c, z) != 0)
            return 1;
    return 0;
}

/* Whether no w at all makes a set healthy by 01: there the ideals of an end with the
 * filter off sum to zero, so its three samples sum to no more than 3/2. */
static int beyond_01(const struct setting *s, const int16_t *list)
{
    for (size_t z = 0; z < s->ends; z++) {
        int sum = list[3 * z] + list[3 * z + 1] + list[3 * z + 2];

        if (!s->end[z].filter && (sum > 1 || sum < -1))
            return 1;
    }
    return 0;
}

/* Tests a set drawn for a healthy bank by what one is, and counts it. Without neutral
 * current it is one by 01 as well, with such current by card 8 alone. */
static void count_set(const struct setting *s, const struct currents *c,
                      const int16_t *list)
{
    int neutral = has_neutral(s, c);

    must(healthy_by_02(s, c, list), "a set is no healthy bank's");
    must(healthy_by_01(s, c, list) == !neutral, "01 and neutral current don't agree");
    told.sets[neutral]++;
    if (!neutral)
        return;
    told.no_w += (unsigned long)beyond_01(s, list);
    for (size_t z = 0; z < s->ends; z++)
        if (s->end[z].filter || limb_sum(c, z) != 0)
            told.met[s->ends - 2][s->end[z].filter][s->end[z].group]++;
}

/* Whether a set is still healthy with a sample one up or down: where its ideal lies
 * halfway, and nowhere else. */
static void moved_sample(struct draw *d, const struct setting *s,
                         const struct currents *c, const int16_t *list, size_t i)
{
    struct ratio ideal = ideal_current(s, i / 3, i % 3, c, 1);
    int step = draw_chance(d, 50) ? 1 : -1;
    int halfway = 2 * ideal.top == 1000 * (2 * list[i] + step) * ideal.bottom;
    int16_t other[SET_NUMBERS];

    memcpy(other, list, sizeof other);
    other[i] = (int16_t)(other[i] + step);
    must(healthy_by_02(s, c, other) == halfway, "a sample one off is judged wrong");
    told.halfway += (unsigned long)halfway;
}

/* An unused end that is not zero, a thousandth of w that no other end takes, and one
 * that goes from an end that filters to another: each makes a set that is no healthy
 * bank's with these currents. */
static void spoilt_set(struct draw *d, const struct setting *s,
                       const struct currents *c, const int16_t *list)
{
    size_t i = (size_t)draw_from(d, 0, 3 * s->ends - 1), z = i / 3;
    int16_t other[SET_NUMBERS];
    struct currents wrong = *c;

    moved_sample(d, s, c, list, i);
    memcpy(other, list, sizeof other);
    other[11] = (int16_t)(other[11] + 1);
    must(s->ends == MAX_ENDS || !healthy_by_02(s, c, other), "an unused end is not 0");
    wrong.w[z][i % 3] += 1;
    must(!healthy_by_02(s, &wrong, list), "w need not balance over the ends");
    wrong.w[(z + 1) % s->ends][i % 3] -= 1;
    must(!s->end[z].filter || !healthy_by_02(s, &wrong, list),
         "w need not sum to 0 where the filter is on");
}

/* A part of each current of a bank, its zero sequence apart. */
static void lighten(struct bank *bank, int64_t by)
{
    for (size_t z = 0; z < MAX_ENDS; z++)
        for (int limb = 0; limb < 3; limb++) {
            if (limb < 2) {
                bank->cosine[z][limb] /= by;
                bank->sine[z][limb] /= by;
            }
            bank->neutral_cosine[z][limb] /= by;
            bank->neutral_sine[z][limb] /= by;
        }
}

/* A bank, every other one at light load down to a millionth of what its ends can
 * show; 0 where it is to have neutral current and the setting has none. */
static int draw_loaded(struct draw *d, const struct setting *s, int neutral,
                       struct bank *bank)
{
    draw_bank(d, s, bank);
    if (neutral && !draw_neutral(d, s, bank))
        return 0;
    if (draw_chance(d, 50))
        lighten(bank, (int64_t)1 << draw_from(d, 1, 20));
    return 1;
}

/* A bank as it is drawn, its currents now and then others, and the list of calls of
 * its sets. */
static void drawn_bank(struct draw *d, const struct setting *s, int neutral)
{
    int16_t sets[MOST_SETS][SET_NUMBERS];
    size_t n = (size_t)draw_from(d, SETS, MOST_SETS);
    struct bank bank;
    struct currents c;

    if (!draw_loaded(d, s, neutral, &bank))
        return;
    for (size_t k = 0; k < n; k++) {
        if (draw_chance(d, 4))
            draw_loaded(d, s, neutral, &bank);
        healthy_currents(d, s, &bank, k, &c, sets[k]);
        count_set(s, &c, sets[k]);
        spoilt_set(d, s, &c, sets[k]);
    }
    call_list(d, s, sets, n, neutral, 0);
    told.banks[neutral]++;
}

/* All drawn banks: on each setting one without neutral current, and one with it where
 * two ends have the filter off. */
static void drawn_banks(struct draw *d)
{
    struct setting s;

    work = "setting";
    for (work_number = 0; work_number < SETTINGS; work_number++) {
        draw_case(d, work_number, 25, &s);
        count_setting(&s);
        drawn_bank(d, &s, 0);
        drawn_bank(d, &s, 1);
    }
}

/* ---- Pushed banks ---- */

/* Currents of an end whose ideals lie so many thousandths from these samples, each on
 * the side that takes the sum of system y up, or down where they are negative. With
 * the filter on their common part is the common number. */
static void aim_end(const struct setting *s, size_t z, size_t y, int64_t push,
                    const int64_t sample[3], struct currents *c)
{
    const struct end *e = &s->end[z];
    int64_t ideal[3];

    for (size_t j = 0; j < 3; j++) {
        size_t phase = (y + j) % 3;
        int64_t t = phase_weight(e, j);

        ideal[phase] = 1000 * sample[phase] - (t > 0 ? push : t < 0 ? -push : 0);
    }
    for (size_t limb = 0; limb < 3; limb++) {
        __int128 sum = 0;

        for (size_t j = 0; j < 3; j++)
            sum += phase_weight(e, j) * ideal[(limb + j) % 3];
        c->w[z][limb] = (int64_t)(sum * e->voltage * e->current /
                                  ((int64_t)3 * 780000 * s->power));
    }
    if (e->filter) {
        c->w[z][2] = -c->w[z][0] - c->w[z][1];
        c->common[z] = (ideal[0] + ideal[1] + ideal[2]) / 3;
    }
}

/* Aims every end but one, just 1/2 or almost so far from samples near those of a set,
 * and has that one balance them. Without neutral current an end with the filter off
 * stays as it is, since its ideals sum to zero. */
static void aim_ends(struct draw *d, const struct setting *s, int neutral, size_t y,
                     int sign, const int16_t *list, size_t last, struct currents *c)
{
    int64_t push = sign * draw_from(d, 499, 500);

    for (size_t z = 0; z < s->ends; z++) {
        int64_t sample[3];

        for (size_t phase = 0; phase < 3; phase++)
            sample[phase] = list[3 * z + phase] + draw_from(d, -40, 40);
        if (z != last && (neutral || s->end[z].filter))
            aim_end(s, z, y, push, sample, c);
    }
    for (size_t limb = 0; limb < 3; limb++) {
        c->w[last][limb] = 0;
        for (size_t z = 0; z < s->ends; z++)
            c->w[last][limb] -= z == last ? 0 : c->w[z][limb];
    }
}

/* A step of w at an end: halves of what one sample is there, or any part of it. */
static int64_t draw_step(struct draw *d, const struct setting *s, size_t z)
{
    int64_t one = 1 + 1000 * (int64_t)matching_factor(s, z) / FACTOR_ONE;

    if (draw_chance(d, 40))
        return draw_from(d, -3, 3) * ((one - 1) / 2);
    return draw_from(d, -one, one);
}

/* Moves currents between two ends, on two limbs so that no sum over limbs changes;
 * with neutral current on one limb alone, where both have the filter off. The common
 * number moves too. */
static void move_currents(struct draw *d, const struct setting *s, int neutral,
                          struct currents *c)
{
    size_t a = (size_t)draw_from(d, 0, s->ends - 1);
    size_t b = (a + (size_t)draw_from(d, 1, s->ends - 1)) % s->ends;
    size_t l = (size_t)draw_from(d, 0, 2), m = (l + (size_t)draw_from(d, 1, 2)) % 3;
    int64_t by = draw_step(d, s, draw_chance(d, 50) ? a : b);

    c->w[a][l] += by;
    c->w[b][l] -= by;
    if (!neutral || s->end[a].filter || s->end[b].filter) {
        c->w[a][m] -= by;
        c->w[b][m] += by;
    }
    if (s->end[a].filter)
        c->common[a] += draw_from(d, -500, 500);
}

/* The sum of a system's matched numbers over the ends. */
static int64_t system_sum(const struct setting *s, const int16_t *list, size_t y)
{
    int32_t matched[SET_NUMBERS];

    match_set(s, list, matched);
    return (int64_t)matched[y] + matched[3 + y] + matched[6 + y] + matched[9 + y];
}

/* Pushes the sum of system y up, or down where the sign is so: of many currents those
 * are kept that take it furthest, first aimed ones and then such as are moved a little
 * from the best. */
static void push_set(struct draw *d, const struct setting *s, int neutral, size_t y,
                     int sign, struct currents *c, int16_t list[SET_NUMBERS])
{
    int64_t most = sign * system_sum(s, list, y);

    for (int i = 0; i < 2 * TRIES; i++) {
        struct currents other = *c;
        int16_t trial[SET_NUMBERS];
        size_t last = (size_t)draw_from(d, 0, s->ends - 1);
        int64_t sum;

        if (i >= TRIES)
            move_currents(d, s, neutral, &other);
        else if (!neutral || !s->end[last].filter)
            aim_ends(d, s, neutral, y, sign, list, last, &other);
        if (!near_set(d, s, &other, trial))
            continue;
        sum = sign * system_sum(s, trial, y);
        if (sum >= most) {
            most = sum;
            *c = other;
            memcpy(list, trial, sizeof trial);
        }
    }
}

/* A bank pushed over one cycle: six sets one way and six the other, which gives a
 * system its largest D; and the list of calls that goes through it twice. */
static void pushed_bank(struct draw *d, const struct setting *s, int neutral)
{
    int16_t sets[2 * WINDOW_SETS][SET_NUMBERS];
    size_t y = (size_t)draw_from(d, 0, 2);
    struct bank bank;
    struct currents c;

    if (!draw_loaded(d, s, neutral, &bank))
        return;
    for (size_t k = 0; k < WINDOW_SETS; k++) {
        healthy_currents(d, s, &bank, k, &c, sets[k]);
        push_set(d, s, neutral, y, k < 6 ? 1 : -1, &c, sets[k]);
        count_set(s, &c, sets[k]);
        spoilt_set(d, s, &c, sets[k]);
        memcpy(sets[WINDOW_SETS + k], sets[k], sizeof sets[k]);
    }
    call_list(d, s, sets, 2 * WINDOW_SETS, neutral, 1);
    told.pushed[neutral]++;
}

/* Where halves of samples weigh most: even groups at ends with the filter on, odd
 * groups at ends with it off. With neutral current, two ends or more are of the
 * latter, end 0 is of the former where there are others; without, all are of it. */
static void weigh_most(struct draw *d, size_t i, struct setting *s)
{
    for (size_t z = 0; z < s->ends; z++) {
        int odd = i % 2 == 0 && z > 0;

        s->end[z].filter = (uint8_t)(!odd && (s->ends > 2 || i % 2 == 1));
        s->end[z].group = (uint8_t)(z == 0 ? 0 : 2 * draw_from(d, 0, 5) + odd);
    }
}

/* All pushed banks, at high factors; half of them on any groups and filters. */
static void pushed_banks(struct draw *d)
{
    struct setting s;

    work = "pushed setting";
    for (work_number = 0; work_number < PUSHED; work_number++) {
        draw_case(d, work_number, 100, &s);
        if (work_number / 6 % 2 == 0)
            weigh_most(d, work_number / 12, &s);
        pushed_bank(d, &s, 0);
        pushed_bank(d, &s, 1);
    }
}

/* ---- Wrong rules ---- */

/* Rules that differ from card 8's in one word each. Banks by them must go past the
 * limits, but for those settings on which a rule can't be told from the right one.
 * - No third at all: where an odd group has the filter off, the sum over the ends lacks
 *   a third of the neutral current there. Not told where all ends with the filter off
 *   have odd groups: what they lack balances; nor where none has.
 * - The third at even groups too: at 0, 4, 8 the sum gains it, at 2, 6, 10, which turn
 *   the sign, it loses it. Not told where all ends with the filter off are of the
 *   former, or all of the latter: it balances; nor where all are odd.
 * - The third after dividing by k: it comes out k times too large. Not told where k
 *   is 1.
 * - No balance over the ends: one end carries nothing, the others all that they did.
 * - Neutral current at an end with the filter on: matching takes it out there, and not
 *   where it leaves. Not told where all ends filter.
 * The third at ends with the filter on too is no other rule: w sums to zero there. */
enum wrong { NO_THIRD, THIRD_AT_EVEN, THIRD_AFTER_K, NO_BALANCE, FILTERED, WRONGS };
static const char *const WRONG_NAME[WRONGS] = {
    "no third", "third at even groups too", "third after dividing by k",
    "no balance over the ends", "neutral current where the filter is on"};

/* By rule: windows past the limits and all of them, by ends; and windows on settings
 * that can't tell the rule. */
static struct {
    unsigned long past[3], all[3], alike;
} wronged[WRONGS];

/* Whether a setting can't tell a wrong rule: ends with the filter off are counted by
 * group, 0 4 8, 2 6 10 and odd, and of these such as have k other than 1. */
static int alike(enum wrong wrong, const struct setting *s)
{
    size_t off = unfiltered_ends(s), even = 0, turned = 0, odd = 0, scaled = 0;

    for (size_t z = 0; z < s->ends; z++) {
        const struct end *e = &s->end[z];
        uint64_t vi = (uint64_t)e->voltage * e->current;

        if (e->filter)
            continue;
        even += e->group % 4 == 0;
        turned += e->group % 4 == 2;
        odd += e->group % 2;
        scaled += e->group % 2 == 1 && 1351 * vi != (uint64_t)780000 * s->power;
    }
    if (wrong == NO_THIRD)
        return odd == 0 || odd == off;
    if (wrong == THIRD_AT_EVEN)
        return even == off || turned == off || odd == off;
    if (wrong == THIRD_AFTER_K)
        return scaled == 0;
    return wrong == FILTERED && off == 0;
}

/* The ideal current by a wrong rule. */
static struct ratio wrong_ideal(enum wrong wrong, const struct setting *s, size_t z,
                                size_t phase, const struct currents *c)
{
    int card8 = wrong != NO_THIRD && wrong != THIRD_AFTER_K;
    struct ratio ideal = ideal_current(s, z, phase, c, card8);
    const struct end *e = &s->end[z];
    __int128 third = 0;

    if (wrong == THIRD_AT_EVEN && e->group % 2 == 0)
        third = (__int128)limb_sum(c, z) * 780000 * s->power;
    if (wrong == THIRD_AFTER_K && e->group % 2 == 1)
        third = limb_sum(c, z) * ideal.bottom;
    if (!e->filter) {
        ideal.top = 3 * ideal.top + third;
        ideal.bottom *= 3;
    }
    return ideal;
}

/* The samples nearest to wrong ideals; 0 when one would be beyond the limit. */
static int wrong_set(enum wrong wrong, const struct setting *s,
                     const struct currents *c, int16_t list[SET_NUMBERS])
{
    memset(list, 0, SET_NUMBERS * sizeof list[0]);
    for (size_t i = 0; i < 3u * s->ends; i++) {
        struct ratio ideal = wrong_ideal(wrong, s, i / 3, i % 3, c);
        __int128 up = ideal.top + 500 * ideal.bottom, one = 1000 * ideal.bottom;
        __int128 sample = up / one - (up % one < 0);

        if (sample > SAMPLE_LIMIT || sample < -SAMPLE_LIMIT)
            return 0;
        list[i] = (int16_t)sample;
    }
    return 1;
}

/* Neutral current from an end with the filter on to another, one with it off where
 * there is one, back after six sets: some thousand samples of the smaller factor. */
static void filtered_neutral(const struct setting *s, size_t k, struct currents *c)
{
    size_t on = 0, to = 0;
    uint64_t least;
    int64_t in;

    while (!s->end[on].filter)
        on++;
    while (to + 1 < s->ends && s->end[to].filter)
        to++;
    least = matching_factor(s, on) < matching_factor(s, to) ? matching_factor(s, on)
                                                            : matching_factor(s, to);
    in = (k % 12 < 6 ? 4000000 : -4000000) * (int64_t)least / FACTOR_ONE;
    c->w[on][0] += in;
    c->w[to][0] -= in;
}

/* A bank for a wrong rule; 0 where the setting has none. At half of what its ends can
 * show, wrong samples mostly fit. */
static int wrong_bank(struct draw *d, enum wrong wrong, const struct setting *s,
                      struct bank *bank)
{
    int neutral;

    draw_bank(d, s, bank);
    neutral = wrong != FILTERED && draw_neutral(d, s, bank);
    lighten(bank, 2);
    if (wrong == FILTERED)
        return unfiltered_ends(s) < s->ends;
    return neutral || wrong == NO_BALANCE;
}

/* A window of a bank by a wrong rule; 0 when a sample would be beyond the limit. Tells
 * whether some set of it is no healthy bank's by card 8. */
static int wrong_window(struct draw *d, enum wrong wrong, const struct setting *s,
                        int16_t list[WINDOW_NUMBERS], int *refuted)
{
    struct bank bank;
    struct currents c;

    if (!wrong_bank(d, wrong, s, &bank))
        return 0;
    *refuted = 0;
    for (size_t k = 0; k < WINDOW_SETS; k++) {
        int16_t *at = list + SET_NUMBERS * k;

        healthy_currents(d, s, &bank, k, &c, at);
        if (wrong == NO_BALANCE)
            memset(c.w[bank.balance], 0, sizeof c.w[0]);
        if (wrong == FILTERED)
            filtered_neutral(s, k, &c);
        if (!wrong_set(wrong, s, &c, at))
            return 0;
        *refuted |= !healthy_by_02(s, &c, at);
    }
    return 1;
}

/* One window by a wrong rule. One past the limits must be refuted by card 8, and there
 * is none on a setting that can't tell the rule. */
static void try_wrong(struct draw *d, enum wrong wrong, const struct setting *s)
{
    int16_t list[WINDOW_NUMBERS];
    struct measured m[SYSTEMS];
    int refuted, past = 0, same = alike(wrong, s);

    if (!wrong_window(d, wrong, s, list, &refuted))
        return;
    measure_list(s, list, m);
    for (size_t y = 0; y < SYSTEMS; y++)
        past |= m[y].differential > LIMIT[s->ends] || m[y].start;
    must(!past || refuted, "a wrong rule's bank is taken for a healthy one");
    must(!past || !same, "a wrong rule is told where it can't be");
    wronged[wrong].alike += (unsigned long)same;
    wronged[wrong].past[s->ends - 2] += (unsigned long)past;
    wronged[wrong].all[s->ends - 2] += !same;
}

/* All wrong rules. */
static void wrong_rules(struct draw *d)
{
    struct setting s;

    work = "setting by wrong rules";
    for (work_number = 0; work_number < WRONGED; work_number++) {
        draw_case(d, work_number, 25, &s);
        for (enum wrong wrong = NO_THIRD; wrong < WRONGS; wrong++)
            try_wrong(d, wrong, &s);
    }
}

/* ---- Cases worked by hand ---- */

/* Ends of 78.0 kV at 135.1 MVA, where rated currents of 500, 1,000 and 2,000 A make k
 * 1/2, 1 and 2; most sensitive, all groups 0 and filters off. */
static struct setting hand_setting(uint8_t ends, const uint32_t current[MAX_ENDS])
{
    struct setting s = plain_setting;

    s.ends = ends;
    for (size_t z = 0; z < ends; z++)
        s.end[z] = (struct end){.voltage = 780, .current = current[z]};
    most_sensitive(&s);
    return s;
}

/* Whether a set and its negation, six times each, are measured with D 0, 0, 0. */
static int sums_to_zero(const struct setting *s, const int16_t set[SET_NUMBERS])
{
    int16_t list[WINDOW_NUMBERS];
    struct measured m[SYSTEMS];

    for (size_t i = 0; i < WINDOW_NUMBERS; i++)
        list[i] = (int16_t)(i / SET_NUMBERS < 6 ? set[i % 12] : -set[i % 12]);
    measure_list(s, list, m);
    return m[0].differential == 0 && m[1].differential == 0 && m[2].differential == 0;
}

/* A set by hand: healthy by card 8, and not by 01 with any w. Calls of it and of its
 * negation are quiet. */
static void hand_set(struct draw *d, const struct setting *s, const struct currents *c,
                     const int16_t set[SET_NUMBERS])
{
    int16_t sets[2 * WINDOW_SETS][SET_NUMBERS];

    must(healthy_by_02(s, c, set), "the set is no healthy bank's");
    must(!healthy_by_01(s, c, set) && beyond_01(s, set), "the set is healthy by 01");
    for (size_t k = 0; k < 2 * WINDOW_SETS; k++)
        for (size_t i = 0; i < SET_NUMBERS; i++)
            sets[k][i] = (int16_t)(k % 12 < 6 ? set[i] : -set[i]);
    call_list(d, s, sets, 2 * WINDOW_SETS, 1, 0);
}

/* An autotransformer as in 001, 3.4.2: end 0 the upper voltage, end 1 the lower, end 2
 * the neutral side of the common winding, k 1, 2, 1/2. A fault to earth beyond end 1
 * on phase A; w in units:
 *            A      B      C     sum
 *   end 0   6000  -1700  -1400   2900
 *   end 1  -9000    300   -100  -8800
 *   end 2   3000   1400   1500   5900
 * In the second set A lies half a unit further, so that samples of ends 0 and 1 lie
 * halfway and may go either way: 6000.5, -4500.5 and 6001. */
static void hand_autotransformer(struct draw *d)
{
    const struct setting s = hand_setting(3, (const uint32_t[4]){1000, 2000, 500});
    struct currents c = {.w = {{6000000, -1700000, -1400000},
                               {-9000000, 300000, -100000},
                               {3000000, 1400000, 1500000}}};
    int16_t set[SET_NUMBERS] = {6000, -1700, -1400, -4500, 150, -50,
                                6000, 2800,  3000};

    work_number = 1;
    hand_set(d, &s, &c, set);
    must(sums_to_zero(&s, set), "D is not 0");
    c.w[0][0] = 6000500;
    c.w[1][0] = -9001000;
    c.w[2][0] = 3000500;
    set[6] = 6001;
    for (int i = 0; i < 4; i++) {
        set[0] = (int16_t)(6000 + i % 2);
        set[3] = (int16_t)(-4500 - i / 2);
        hand_set(d, &s, &c, set);
    }
    set[3] = -4499;
    must(!healthy_by_02(&s, &c, set), "-4499 for -4500.5 is taken");
    set[3] = -4502;
    must(!healthy_by_02(&s, &c, set), "-4502 for -4500.5 is taken");
}

/* End 0 of group 0 and k 1, end 1 of group 5 and k 2, no filters. w at end 0 is 7320,
 * 2640, -2040, at end 1 the negation, so the sums are 7920 and -7920. At group 5 the
 * ideal is T(7), next less own, times 1351/2340, less 2640, a third of 7920, over 2:
 *   A: ( 7320 - 2640) 1351/2340 - 2640 =  2702 - 2640 =    62,    31
 *   B: ( 2640 + 2040) 1351/2340 - 2640 =  2702 - 2640 =    62,    31
 *   C: (-2040 - 7320) 1351/2340 - 2640 = -5404 - 2640 = -8044, -4022
 * Matched, T(5), before less own, times 780/1351, and z0 -1320, times 2:
 *   A: -4053 780/1351 - 1320 = -2340 - 1320 = -3660, -7320, and so on.
 * With no third the samples would be 1351, 1351, -2702, with one after dividing by k
 * 1351 - 2640 = -1289, -1289, -5342; neither is a healthy bank's with this w. */
static void hand_odd_group(struct draw *d)
{
    struct setting s = hand_setting(2, (const uint32_t[4]){1000, 2000});
    const struct currents c = {.w = {{7320000, 2640000, -2040000},
                                     {-7320000, -2640000, 2040000}}};
    const int16_t set[SET_NUMBERS] = {7320, 2640, -2040, 31, 31, -4022};
    const int16_t no_third[SET_NUMBERS] = {7320, 2640, -2040, 1351, 1351, -2702};
    const int16_t after[SET_NUMBERS] = {7320, 2640, -2040, -1289, -1289, -5342};

    work_number = 2;
    s.end[1].group = 5;
    hand_set(d, &s, &c, set);
    must(sums_to_zero(&s, set), "D is not 0");
    must(!healthy_by_02(&s, &c, no_third) && !sums_to_zero(&s, no_third),
         "the set without the third is taken");
    must(!healthy_by_02(&s, &c, after) && !sums_to_zero(&s, after),
         "the set with a third after dividing by k is taken");
}

/* The largest matched number that a healthy bank can have: all samples of an odd group
 * with the filter off at 32,000, as their weights have the sign, and k 16; two ends of
 * group 0 share the rest. It is 512,000 times 6031/4053, to the nearest 761,873. */
static void hand_reach(struct draw *d)
{
    struct setting s = hand_setting(3, (const uint32_t[4]){16000, 16000, 16000});
    int16_t sets[2 * WINDOW_SETS][SET_NUMBERS];

    work_number = 3;
    for (s.end[1].group = 1; s.end[1].group < 12; s.end[1].group += 2) {
        struct currents c = {0};

        for (size_t limb = 0; limb < 3; limb++) {
            for (size_t j = 0; j < 3; j++)
                c.w[1][limb] += 512000000 * phase_weight(&s.end[1], j) / 4053 *
                                (phase_weight(&s.end[1], (limb + j) % 3) > 0 ? 1 : -1);
            c.w[0][limb] = -c.w[1][limb] / 2;
            c.w[2][limb] = -c.w[1][limb] - c.w[0][limb];
        }
        for (size_t k = 0; k < 2 * WINDOW_SETS; k++) {
            must(near_set(d, &s, &c, sets[k]), "a sample is beyond the limit");
            count_set(&s, &c, sets[k]);
            turn_samples(sets[k], k % 12 < 6 ? 0 : SET_NUMBERS);
        }
        call_list(d, &s, sets, 2 * WINDOW_SETS, 1, 0);
    }
    must(told.matched == 761873, "the largest matched number isn't 761,873");
}

/* All cases by hand. */
static void hand_cases(struct draw *d)
{
    work = "case by hand";
    hand_autotransformer(d);
    hand_odd_group(d);
    hand_reach(d);
}

/* ---- What there was ---- */

/* Tells the ends of sets with neutral current by group; whether each group is met. */
static int tell_groups(size_t ends, int filter)
{
    int all = 1;

    printf("banks: neutral current at %zu ends, %s, by group:", ends,
           filter ? "ends beside it with the filter on" : "ends that carry it");
    for (size_t g = 0; g < 12; g++) {
        printf(" %lu", told.met[ends - 2][filter][g]);
        all &= told.met[ends - 2][filter][g] != 0;
    }
    printf("%s\n", all ? "" : ", one is missing");
    return all;
}

/* Tells the groups; whether each is met with neutral current, for each number of ends
 * with the filter off, for 3 and 4 beside such ends with it on, and at each end. */
static int groups_told(void)
{
    int all = tell_groups(2, 0) & tell_groups(3, 0) & tell_groups(4, 0) &
              tell_groups(3, 1) & tell_groups(4, 1);

    for (size_t z = 1; z < MAX_ENDS; z++)
        for (size_t g = 0; g < 12; g++)
            all &= told.groups[z][g] != 0;
    return all;
}

/* Tells the largest D. */
static void tell_most(const char *what, int32_t most[3][2])
{
    printf("banks: largest D at 2, 3, 4 ends, %s: %d, %d, %d without neutral current; "
           "%d, %d, %d with\n", what, most[0][0], most[1][0], most[2][0], most[0][1],
           most[1][1], most[2][1]);
}

/* Tells the wrong rules; whether each went past the limits at 2, 3 and 4 ends. */
static int wrong_told(void)
{
    int all = 1;

    for (size_t w = 0; w < WRONGS; w++) {
        const unsigned long *past = wronged[w].past, *of = wronged[w].all;

        printf("banks: %s: past the limits at 2, 3, 4 ends %lu of %lu, %lu of %lu, "
               "%lu of %lu; can't be told %lu\n", WRONG_NAME[w], past[0], of[0],
               past[1], of[1], past[2], of[2], wronged[w].alike);
        all &= past[0] != 0 && past[1] != 0 && past[2] != 0;
        all &= w == NO_BALANCE || wronged[w].alike != 0;
    }
    return all;
}

/* Tells all; whether everything is there that must be. */
static int all_told(void)
{
    const unsigned long *b = told.between;
    int all;

    printf("banks: %d settings, factors %lu to %lu; banks %lu without neutral current, "
           "%lu with; pushed %lu, %lu\n", SETTINGS, (unsigned long)told.lowest,
           (unsigned long)told.highest, told.banks[0], told.banks[1], told.pushed[0],
           told.pushed[1]);
    printf("banks: sets %lu without neutral current, %lu with, %lu of these a healthy "
           "bank's by 01 with no w at all\n", told.sets[0], told.sets[1], told.no_w);
    printf("banks: between them refused 14, 10, 11: %lu, %lu, %lu, and %lu resets; "
           "ideals seen halfway %lu; largest matched number %d\n", b[0], b[1], b[2],
           b[3], told.halfway, told.matched);
    all = b[0] != 0 && b[1] != 0 && b[2] != 0 && b[3] != 0 && told.no_w != 0 &&
          told.halfway != 0;
    tell_most("drawn", told.most[0]);
    tell_most("pushed", told.most[1]);
    return groups_told() & wrong_told() & all;
}

int main(void)
{
    struct draw d = {0xBA4C5}, pushed = {0x9054ED}, wrong = {0x34046}, hand = {0x4A4D};

    drawn_banks(&d);
    pushed_banks(&pushed);
    wrong_rules(&wrong);
    hand_cases(&hand);
    if (all_told())
        return fflush(stdout) != 0;
    fputs("banks: something that must be there is missing\n", stderr);
    return 1;
}
