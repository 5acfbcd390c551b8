/* Faults inside the bank that are fed from one end. A system is fed from end z in a
 * full window when the matched numbers of all other ends in use are zero for it, in
 * all twelve sets. There R is D, whichever end it is: at two ends both are amplitudes
 * of the same numbers but for their sign, at more the other ends add nothing. So the
 * system starts exactly when D is above P: with R = D the characteristic asks for
 * 200 D > 200 P + m (D - P) along a slope of m, which is at most 150. M such sets in
 * a row that are not blocked latch it; M with D above H latch it, whatever blocks and
 * whichever ends feed. A healthy bank has D at most 45, 69, 91: the lowest P is 55,
 * 31, 9 above that.
 * Every combination of P, slopes and Q at their edges, ends, feeding end, group and
 * filter is gone through; then windows of any matched numbers, and lists of calls from
 * fresh relays. What is expected is worked out here, from the record's matched
 * numbers. Wrong rules must be told from the right ones. Prints what there was. */
#include "draw.h"

#include <stdio.h>
#include <stdlib.h>
#include <string.h>

#define LISTS 8000          /* of calls with faults */
#define TURNS 2000          /* of calls with the feeding end in turn */
#define NUMBERED 40000      /* windows of any matched numbers */
#define MOST_STEPS 400      /* of a sample by one, to bring D where it is wanted */

static const int32_t LIMIT[MAX_ENDS + 1] = {0, 0, 45, 69, 91};
static const int32_t APART[MAX_ENDS + 1] = {0, 0, 55, 31, 9};

/* Where D is aimed at: P, 2Q and H, each with one below and one above. */
enum { SPOTS = 9 };

/* A sine with or without second and fifth, or with direct current that decays; any
 * numbers; one set alone; and the largest samples as their weights have the sign. */
enum shape { SINE, SECOND, FIFTH, BOTH, DIRECT, NOISE, ALONE, LARGEST, SHAPES };

/* Factors of the feeding end: just 1/2, just 16, between, and below 1/2, which only
 * three and four ends can have. */
enum factor { LOWEST, HIGHEST, BETWEEN, BELOW, FACTORS };

/* Wrong rules, each with windows or sets that show it wrong.
 * - Start at D at least P: D = P tells it.
 * - m2 250 at Q 1,500: a D far above P doesn't start.
 * - R of ends 0 and 1 alone, at three and four: it is 0 where end 2 or 3 feeds.
 * - A half going up in c and s, as before card 1: R is not D where end 1 of two feeds.
 * - M - 1 sets in a row latch.
 * - A set that doesn't count clears the latch.
 * - Blocking holds back the high-set.
 * - M sets above P latch though they are blocked. */
enum wrong {
    AT_LEAST, STEEP, TWO_ENDS, HALF_UP, ONE_LESS, CLEARS, HOLDS_HIGH, UNHELD, WRONGS
};
static const char *const WRONG_NAME[WRONGS] = {
    "start at D at least P",
    "start above P with m2 of 250",
    "R of ends 0 and 1 alone is D",
    "R is D at end 1 of two with a half going up",
    "M - 1 sets latch",
    "a set that doesn't count clears the latch",
    "blocking holds back the high-set",
    "M blocked sets above P latch"};

/* How a latch came just at the M-th set in a row: with flags 0; with second or fifth
 * on, not blocked; with common blocking alone; with D above H and blocked each time. */
enum way { FREE, BLOCKING, COMMON, ABOVE_H, WAYS };
static const char *const WAY_NAME[WAYS] = {
    "flags 0", "blocking on", "common blocking alone", "D above H and blocked"};

/* What a run has: settings and their factors, lists, sets, full windows. Systems fed
 * from one end: by ends and end, those that don't start and those that do; with no
 * current, where every end qualifies; by section; by spot; above H; blocked above P by
 * harmonics of their own, by another system alone; blocked above H. Systems fed from
 * several ends that don't start above P. */
static struct {
    unsigned long settings, lists, sets, windows, fed[3][MAX_ENDS][2], none;
    unsigned long section[3], spot[SPOTS], high, blocked[3], several;
    uint64_t lowest, highest;
} told = {.lowest = FACTOR_HIGHEST};

/* Combinations by factor, and those with all three sections met; a D that was not come
 * by, at small factors or small itself. Faults that start, by shape and by phases. Ends
 * beside a fault whose current the system doesn't see: equal in all phases, in phases
 * that it doesn't take, any other; and starts with such in all twelve sets. */
static struct {
    unsigned long all[FACTORS], whole[FACTORS], missed, shape[SHAPES], phases[4];
    unsigned long unseen[3], hidden;
} met;

/* Other calls: refused 14, 10, 11; resets by call and by page; reads and writes, those
 * refused. Latches at the M-th set in a row, by way and M: 1, between, 24; with the
 * feeding end in turn; above H from several ends; with other calls between; of faults
 * from no current and from through-current. Latches cleared by call and by page. How
 * often each wrong rule was told. */
static struct {
    unsigned long refused[3], resets[2], page[2], page_refused, exact[WAYS][3];
    unsigned long turn, several, strewn, from[2], cleared[2], wrong[WRONGS];
} calls;

/* The largest D from samples and of any matched numbers. By ends: the least D that
 * starts, the largest of healthy banks, and how many systems of theirs there were. The
 * least slope that holds back a D above P. */
static struct {
    int64_t largest[2], least[3], healthy[3], slope;
    unsigned long quiet[3];
} most = {.least = {INT64_MAX, INT64_MAX, INT64_MAX}};

/* Which case is at work, for what goes wrong. */
static const char *work = "";
static size_t work_number;

/* Ends the run with a message when something is not as it must be. */
static void must(int right, const char *what)
{
    if (right)
        return;
    fprintf(stderr, "faults: %s %zu: %s\n", work, work_number, what);
    exit(1);
}

/* ---- What is expected ---- */

static const int64_t T[WINDOW_SETS] = {1560,  1351,  780,  0, -780, -1351,
                                       -1560, -1351, -780, 0, 780,  1351};

/* c or s: a sum over 9,360 to the nearest, a half away from zero; or up, by the wrong
 * rule. */
static int64_t over_9360(int64_t sum, int up)
{
    int64_t size = sum < 0 ? -sum : sum;
    int64_t near = (2 * size + (up && sum < 0 ? 9359 : 9360)) / 18720;

    return sum < 0 ? -near : near;
}

/* The amplitude for h = 1 of twelve numbers, by document 01 with card 1's rounding or
 * a half going up; of four ends' sum it is below 2^22. */
static int64_t own_amplitude(const int64_t u[WINDOW_SETS], int up)
{
    int64_t c = 0, s = 0, root = 0, square;

    for (size_t k = 0; k < WINDOW_SETS; k++) {
        c += T[k] * u[k];
        s += T[(k + 9) % 12] * u[k];
    }
    c = over_9360(c, up);
    s = over_9360(s, up);
    square = c * c + s * s;
    for (int64_t bit = 1 << 22; bit != 0; bit /= 2)
        if ((root + bit) * (root + bit) <= square)
            root += bit;
    return root;
}

/* The numbers of a system over a window, summed over the ends whose bits are set. */
static void take_numbers(const int32_t *values, unsigned ends, size_t y,
                         int64_t u[WINDOW_SETS])
{
    for (size_t k = 0; k < WINDOW_SETS; k++) {
        u[k] = 0;
        for (size_t z = 0; z < MAX_ENDS; z++)
            if (ends >> z & 1)
                u[k] += values[12 * k + 3 * z + y];
    }
}

/* The amplitude of a system's sum over such ends. */
static int64_t ends_amplitude(const int32_t *values, unsigned ends, size_t y)
{
    int64_t u[WINDOW_SETS];

    take_numbers(values, ends, y, u);
    return own_amplitude(u, 0);
}

/* The ends that feed system y, as bits: those in use beside which all others in use
 * have only zeros. With no current at all, each end in use. */
static unsigned fed_from(const struct setting *s, const int32_t *values, size_t y)
{
    unsigned loaded = 0, fed = 0;

    for (size_t k = 0; k < WINDOW_SETS; k++)
        for (size_t z = 0; z < s->ends; z++)
            loaded |= (unsigned)(values[12 * k + 3 * z + y] != 0) << z;
    for (size_t z = 0; z < s->ends; z++)
        if ((loaded & ~(1u << z)) == 0)
            fed |= 1u << z;
    return fed;
}

/* The characteristic's numbers: P, slopes and Q; and those of a setting. */
struct line {
    int64_t p, m1, m2, q;
};

static struct line line_of(const struct setting *s)
{
    return (struct line){s->pick_up, s->slope1, s->slope2, s->third_section};
}

/* The section that R lies in, 0 to 2. */
static size_t section_of(const struct line *l, int64_t r)
{
    return r <= l->p ? 0 : r <= 2 * l->q ? 1 : 2;
}

/* Whether a system starts, section by section as document 01 has it; slopes may be
 * such as no relay starts on. */
static int line_starts(const struct line *l, int64_t d, int64_t r)
{
    switch (section_of(l, r)) {
    case 0: return d > l->p;
    case 1: return 200 * d > 200 * l->p + l->m1 * (r - l->p);
    default:
        return 200 * d > 200 * l->p + l->m1 * (2 * l->q - l->p) +
                             l->m2 * (r - 2 * l->q);
    }
}

/* Whether a system has harmonics of its own. */
static int has_own(const struct setting *s, const struct measured *m)
{
    return ((s->flags & 1) && 100 * m->second > s->second * m->differential) ||
           ((s->flags & 2) && 100 * m->fifth > s->fifth * m->differential);
}

/* Whether system y is blocked: by its own harmonics; with common blocking also by those
 * of a system whose own D is above P (02, card 4). */
static int is_blocked(const struct setting *s, const struct measured m[SYSTEMS],
                      size_t y)
{
    for (size_t x = 0; x < SYSTEMS; x++)
        if (has_own(s, &m[x]) &&
            (x == y || ((s->flags & 4) && m[x].differential > s->pick_up)))
            return 1;
    return 0;
}

/* ---- A system fed from one end ---- */

/* The value that a spot is. */
static int64_t spot_value(const struct setting *s, size_t spot)
{
    int64_t at = spot < 3   ? s->pick_up
                 : spot < 6 ? 2 * s->third_section
                            : s->high_set;

    return at + (int64_t)(spot % 3) - 1;
}

/* Counts a system that is fed from one end. */
static void count_fed(const struct setting *s, unsigned fed, const struct measured *m)
{
    const struct line line = line_of(s);
    int64_t d = m->differential;

    if (fed == (1u << s->ends) - 1)
        told.none++;
    else
        for (size_t z = 0; z < s->ends; z++)
            told.fed[s->ends - 2][z][m->start] += fed >> z & 1;
    told.section[section_of(&line, d)]++;
    for (size_t i = 0; i < SPOTS; i++)
        told.spot[i] += d == spot_value(s, i);
    told.high += d > s->high_set;
    if (m->start && d < most.least[s->ends - 2])
        most.least[s->ends - 2] = d;
}

/* Tries wrong rules of start and R on a system fed from one end, with one or more
 * numbers that aren't zero. */
static void try_wrong(const struct setting *s, const int32_t *values, size_t y,
                      unsigned fed, const struct measured *m)
{
    struct line steep = line_of(s);
    int64_t d = m->differential, u[WINDOW_SETS], two, half;

    calls.wrong[AT_LEAST] += (d >= s->pick_up) != m->start;
    steep.m2 = 250;
    if (s->third_section == 1500)
        calls.wrong[STEEP] += m->start && !line_starts(&steep, d, d);
    if (s->ends > 2) {
        two = ends_amplitude(values, 1, y) + ends_amplitude(values, 2, y);
        must((two != d) == (d != 0 && (fed & 3) == 0), "R of two ends is judged wrong");
        calls.wrong[TWO_ENDS] += two != d;
    } else if (fed == 2) {
        take_numbers(values, 2, y, u);
        half = own_amplitude(u, 1);
        for (size_t k = 0; k < WINDOW_SETS; k++)
            u[k] = -u[k];
        calls.wrong[HALF_UP] += own_amplitude(u, 1) != half;
    }
}

/* A system fed from one end: R is D, which is the amplitude of that end's numbers, and
 * it starts exactly when D is above P. */
static void check_fed(const struct setting *s, const int32_t *values, size_t y,
                      unsigned fed, const struct measured *m)
{
    const struct line line = line_of(s);
    int64_t d = m->differential;

    for (size_t z = 0; z < s->ends; z++)
        if (fed >> z & 1)
            must(d == ends_amplitude(values, 1u << z, y), "D is not the end's");
    must(m->twice_restraint == d, "R is not D");
    must(m->start == (d > s->pick_up), "it doesn't start just when D is above P");
    must(m->start == line_starts(&line, d, d), "the sections say otherwise");
    count_fed(s, fed, m);
    if (fed != (1u << s->ends) - 1)
        try_wrong(s, values, y, fed, m);
}

/* ---- The watch over a relay ---- */

/* What is expected of a system at a measured set: the ends that feed it; whether D is
 * above P and above H; whether it is blocked; and whether the set counts. */
struct view {
    unsigned fed;
    int above, high, blocked, counts;
};

/* How many of the last calls, all of them sample calls that answer Measured, had a
 * system fed from one end, above P and not blocked; so, or blocked; so from the same
 * end; above H; above H and blocked; above H and fed from several ends. And how many of
 * the last sets had the first, whatever calls but a reset came between. */
struct runs {
    unsigned fault, any, same, high, held, several, sets;
};

/* A relay and what is expected of it: counters, latches, and runs by system with the
 * end that fed it last. By end: the sections met while it feeds, and how many of the
 * last sets have current there. How many of the last sets are a healthy bank's. */
struct watch {
    struct relay relay;
    unsigned count[SYSTEMS];
    uint8_t latch[SYSTEMS];
    struct runs run[SYSTEMS];
    unsigned end[SYSTEMS];
    unsigned sections[MAX_ENDS], carried[MAX_ENDS], healthy;
};

/* A fresh relay; P lies as far above a healthy bank's D as it must. */
static void start_watch(const struct setting *s, struct watch *w)
{
    size_t offset;

    memset(w, 0, sizeof *w);
    must(relay_start(s, &w->relay, &offset) == ACCEPTED, "a relay doesn't start");
    must(s->pick_up - LIMIT[s->ends] >= APART[s->ends], "P is too near a healthy D");
    told.settings++;
    for (size_t z = 0; z < s->ends; z++) {
        uint64_t factor = matching_factor(s, z);

        told.lowest = factor < told.lowest ? factor : told.lowest;
        told.highest = factor > told.highest ? factor : told.highest;
    }
}

/* After each call: counters and latches are those expected. */
static void agree(const struct watch *w)
{
    for (size_t y = 0; y < SYSTEMS; y++) {
        must(w->relay.counters[y] == w->count[y], "a counter is not as expected");
        must(w->relay.latches[y] == w->latch[y], "a latch is not as expected");
    }
}

/* A call that is no measured set: no system has any such set last. */
static void end_runs(struct watch *w)
{
    for (size_t y = 0; y < SYSTEMS; y++)
        w->run[y] = (struct runs){.sets = w->run[y].sets};
}

/* A system at a measured set. D and blocking are worked out here; of a system that is
 * not fed from one end, the start is the relay's own. */
static struct view view_of(const struct relay *relay, const struct answer *a, size_t y)
{
    const struct setting *s = &relay->setting;
    const struct measured *m = &a->system[y];
    int64_t d = ends_amplitude(relay->values, (1u << s->ends) - 1, y);
    struct view v = {.fed = fed_from(s, relay->values, y)};

    must(m->differential == d, "D is wrong");
    v.above = d > s->pick_up;
    v.high = d > s->high_set;
    v.blocked = is_blocked(s, a->system, y);
    must(m->blocked == v.blocked, "blocking is wrong");
    v.counts = ((v.fed ? v.above : m->start) && !v.blocked) || v.high;
    return v;
}

/* Counts a latch that comes at this set, the M-th that counts: in a row of calls it is
 * the M-th there too. */
static void count_latch(const struct watch *w, size_t y)
{
    const struct setting *s = &w->relay.setting;
    const struct runs *run = &w->run[y];
    unsigned m = s->confirm;
    size_t by = m == 1 ? 0 : m < 24 ? 1 : 2;

    must(run->fault <= m && run->high <= m, "a latch comes later than at the M-th set");
    if (run->fault == m)
        calls.exact[s->flags == 0 ? FREE : s->flags & 3 ? BLOCKING : COMMON][by]++;
    calls.strewn += run->fault < m && run->sets >= m;
    calls.exact[ABOVE_H][by] += run->held == m;
    calls.wrong[HOLDS_HIGH] += run->held == m;
    calls.several += run->several == m;
    calls.turn += run->any == m && run->same < m;
}

/* The expected counter and latch after a measured set. */
static void count_set(struct watch *w, size_t y, const struct view *v)
{
    unsigned m = w->relay.setting.confirm;

    if (!v->counts) {
        calls.wrong[CLEARS] += w->latch[y];
        w->count[y] = 0;
        return;
    }
    if (w->count[y] < m)
        w->count[y]++;
    if (w->count[y] == m && !w->latch[y]) {
        count_latch(w, y);
        w->latch[y] = 1;
    }
}

/* The next of a run, or its end. */
static void next_run(unsigned *run, int on)
{
    *run = on ? *run + 1 : 0;
}

/* Whether the last M sets must have latched a system, and if so, that it is. With flags
 * 0 blocking is not looked at. */
static void check_runs(struct watch *w, size_t y, const struct view *v)
{
    const struct setting *s = &w->relay.setting;
    struct runs *run = &w->run[y];
    int any = v->fed && v->above, fault = any && (s->flags == 0 || !v->blocked);

    next_run(&run->fault, fault);
    next_run(&run->any, any);
    run->same = any && v->fed == w->end[y] ? run->same + 1 : (unsigned)any;
    next_run(&run->high, v->high);
    next_run(&run->held, v->high && v->blocked);
    next_run(&run->several, v->high && !v->fed);
    next_run(&run->sets, fault);
    w->end[y] = v->fed;
    if (w->relay.latches[y])
        return;
    must(run->fault < s->confirm, "M sets of a fault don't latch");
    must(run->high < s->confirm, "M sets above H don't latch");
    must(run->sets < s->confirm, "a call between clears a counter");
    calls.wrong[ONE_LESS] += run->fault != 0 && run->fault + 1 == s->confirm;
    calls.wrong[UNHELD] += run->any >= s->confirm;
}

/* Counts what a system fed from one end has to do with blocking, sections met and
 * current that it doesn't see. */
static void count_view(struct watch *w, const struct measured *m, size_t y,
                       const struct view *v)
{
    const struct setting *s = &w->relay.setting;
    const struct line line = line_of(s);
    int hidden = 0;

    for (size_t z = 0; z < s->ends; z++) {
        if (v->fed >> z & 1)
            w->sections[z] |= 1u << section_of(&line, m[y].twice_restraint);
        else
            hidden |= w->carried[z] >= WINDOW_SETS;
    }
    met.hidden += v->above && hidden;
    if (v->above && v->blocked)
        told.blocked[has_own(s, &m[y]) ? 0 : 1]++;
    told.blocked[2] += v->high && v->blocked;
}

/* A window of a healthy bank: D keeps its limit, so far below P, and nothing starts. */
static void check_healthy(const struct setting *s, const struct measured *m)
{
    int64_t d = m->differential, *largest = &most.healthy[s->ends - 2];

    must(d <= LIMIT[s->ends], "a healthy bank's D is above its limit");
    must(s->pick_up - d >= APART[s->ends], "a healthy bank's D is too near P");
    must(!m->start, "a healthy bank starts");
    *largest = d > *largest ? d : *largest;
    most.quiet[s->ends - 2]++;
}

/* All systems at a measured set. */
static void check_answer(struct watch *w, const struct answer *a)
{
    const struct setting *s = &w->relay.setting;

    told.windows++;
    for (size_t y = 0; y < SYSTEMS; y++) {
        const struct measured *m = &a->system[y];
        struct view v = view_of(&w->relay, a, y);

        if (w->healthy >= WINDOW_SETS)
            check_healthy(s, m);
        if (v.fed) {
            check_fed(s, w->relay.values, y, v.fed, m);
            count_view(w, a->system, y, &v);
            if (m->differential > most.largest[0])
                most.largest[0] = m->differential;
        } else {
            told.several += v.above && !m->start;
        }
        must((s->flags & 3) != 0 || !m->blocked, "it is blocked with blocking off");
        check_runs(w, y, &v);
        count_set(w, y, &v);
        must(a->latched[y] == w->latch[y], "an answer's latch is not as expected");
    }
}

/* ---- Calls ---- */

/* Keeps at how many of the last sets an end has current. */
static void count_carried(struct watch *w, const int16_t *list)
{
    for (size_t z = 0; z < w->relay.setting.ends; z++) {
        const int16_t *at = list + 3 * z;

        w->carried[z] = at[0] || at[1] || at[2] ? w->carried[z] + 1 : 0;
    }
}

/* A sample call of a set that is accepted, told whether it is a healthy bank's. */
static void call_sample(struct watch *w, const int16_t *list, int healthy)
{
    struct answer a;

    must(relay_sample(&w->relay, list, SET_NUMBERS, &a) == ACCEPTED,
         "a set is refused");
    told.sets++;
    w->healthy = healthy ? w->healthy + 1 : 0;
    count_carried(w, list);
    if (a.filling == 0) {
        check_answer(w, &a);
    } else {
        memset(w->run, 0, sizeof w->run);
        memset(w->count, 0, sizeof w->count);
    }
    agree(w);
}

/* A sample call of the wrong length, or of a set that is spoilt. */
static void call_refused(struct draw *d, struct watch *w, const int16_t *set)
{
    static const uint8_t length[5] = {0, 1, 11, 13, 24};
    int16_t list[2 * SET_NUMBERS] = {0};
    size_t n = SET_NUMBERS;
    enum refusal refusal;
    struct answer a;

    memcpy(list, set, SET_NUMBERS * sizeof list[0]);
    if (draw_chance(d, 40))
        n = length[draw_from(d, 0, 4)];
    else
        spoil_set(d, &w->relay.setting, list);
    refusal = relay_sample(&w->relay, list, n, &a);
    must(refusal == LIST_WRONG || refusal == SAMPLE_BEYOND ||
         refusal == UNUSED_END_WRONG, "a set isn't refused with 14, 10 or 11");
    calls.refused[refusal == LIST_WRONG ? 0 : refusal == SAMPLE_BEYOND ? 1 : 2]++;
    end_runs(w);
    agree(w);
}

/* What a reset leaves, by call (0) or by page. */
static void expect_reset(struct watch *w, int by_page)
{
    calls.resets[by_page]++;
    for (size_t y = 0; y < SYSTEMS; y++)
        calls.cleared[by_page] += w->latch[y];
    memset(w->count, 0, sizeof w->count);
    memset(w->latch, 0, sizeof w->latch);
    memset(w->run, 0, sizeof w->run);
}

/* A reset, by the call or by writing 1 to byte 7 of the page. */
static void call_reset(struct draw *d, struct watch *w)
{
    int by_page = draw_chance(d, 50);
    enum refusal refusal = by_page ? relay_write(&w->relay, PAGE_RESET, 1)
                                   : relay_reset(&w->relay);

    must(refusal == ACCEPTED, "a reset is refused");
    expect_reset(w, by_page);
    agree(w);
}

/* A read or a write of the page, at any offset and of any value. Byte 0 reads as the
 * latches. */
static void call_page(struct draw *d, struct watch *w)
{
    struct page_call call = draw_page_call(d);
    uint8_t byte = 0, latched = (uint8_t)(w->latch[0] | w->latch[1] << 1 |
                                          w->latch[2] << 2);
    enum refusal refusal = call.write
                               ? relay_write(&w->relay, call.offset, call.value)
                               : relay_read(&w->relay, call.offset, &byte);

    must(refusal == ACCEPTED || refusal == PAGE_BEYOND || refusal == BYTE_FIXED,
         "a page call is refused with another number");
    calls.page_refused += refusal != ACCEPTED;
    calls.page[call.write]++;
    if (!call.write && call.offset == 0)
        must(byte == latched, "byte 0 of the page isn't the latches");
    if (call.write && call.offset == PAGE_RESET && call.value == 1)
        expect_reset(w, 1);
    end_runs(w);
    agree(w);
}

/* A call that is no accepted set. */
static void call_other(struct draw *d, struct watch *w, const int16_t *set)
{
    int64_t kind = draw_from(d, 0, 9);

    if (kind < 4)
        call_refused(d, w, set);
    else if (kind < 9)
        call_page(d, w);
    else
        call_reset(d, w);
}

/* ---- Settings ---- */

/* An edge of a range, one of five times a value of it. */
static uint16_t draw_edge(struct draw *d, int64_t low, int64_t high)
{
    int64_t kind = draw_from(d, 0, 4);

    return (uint16_t)(kind < 2 ? low : kind < 4 ? high : draw_from(d, low, high));
}

/* What is not in a combination, mostly at its edges. */
static void draw_rest(struct draw *d, struct setting *s)
{
    s->flags = (uint8_t)draw_from(d, 0, 7);
    s->confirm = (uint8_t)draw_edge(d, 1, 24);
    s->high_set = draw_edge(d, 2500, 30000);
    s->second = draw_edge(d, 10, 50);
    s->fifth = draw_edge(d, 10, 80);
    draw_overcurrent(d, (uint8_t)(draw_chance(d, 10) ? draw_from(d, 1, CURVES) : 0), s);
}

/* P, slopes and Q at edges: slopes the same at both edges, apart, or the same
 * between. */
static void put_edges(struct draw *d, size_t p, size_t slopes, size_t q,
                      struct setting *s)
{
    s->pick_up = p == 0 ? 100 : 2500;
    s->third_section = q == 0 ? 1500 : 10000;
    s->slope1 = slopes < 2 ? 10 : 150;
    s->slope2 = slopes < 1 ? 10 : 150;
    if (slopes == 3)
        s->slope1 = s->slope2 = (uint16_t)draw_from(d, 11, 149);
}

/* An end of 78.0 kV at 135.1 MVA, where 500 A make a factor of 1/2 and 16,000 A one of
 * 16. */
static struct end draw_end(struct draw *d, enum factor factor)
{
    struct end e = {.voltage = 780, .group = (uint8_t)draw_from(d, 0, 11),
                    .filter = (uint8_t)draw_from(d, 0, 1)};

    e.current = (uint32_t)(factor == LOWEST    ? 500
                           : factor == HIGHEST ? 16000
                           : factor == BETWEEN ? draw_spread(d, 501, 15999)
                                               : draw_from(d, 1, 499));
    return e;
}

/* A setting for a list: flags in turn, and the rest at edges, or any setting. */
static void draw_listed(struct draw *d, size_t i, struct setting *s)
{
    draw_setting(d, (uint8_t)(2 + i % 3), s);
    if (draw_chance(d, 60)) {
        s->power = 1351;
        for (size_t z = 0; z < s->ends; z++)
            s->end[z] = draw_end(d, (enum factor)draw_from(d, LOWEST, BETWEEN));
        s->end[0].group = 0;
    }
    if (draw_chance(d, 75)) {
        draw_rest(d, s);
        put_edges(d, (size_t)draw_from(d, 0, 1), (size_t)draw_from(d, 0, 3),
                  (size_t)draw_from(d, 0, 1), s);
    }
    s->flags = (uint8_t)(i / 3 % 8);
}

/* ---- Faults ---- */

/* A cycle of samples at the end that feeds, and direct current on top that each set
 * leaves so many thousandths of. */
struct fault {
    size_t end, phases;
    enum shape shape;
    int16_t at[WINDOW_SETS][3];
    int64_t direct[3], keep;
};

/* One phase over a cycle: a sine, with second and fifth as the shape has them, clipped
 * where it is too large. */
static void draw_sine(struct draw *d, enum shape shape, int16_t u[WINDOW_SETS])
{
    const struct setting *one = &plain_setting;
    struct wave wave = {0};
    int16_t list[SET_NUMBERS];
    int64_t top = draw_from(d, 8000, 40000);

    for (size_t h = 0; h < 3; h++) {
        int64_t part = h == 0 ? top : top * draw_from(d, 1, 150) / 100;

        if ((h == 1 && shape != SECOND && shape != BOTH) ||
            (h == 2 && shape != FIFTH && shape != BOTH))
            continue;
        wave.cosine[h][0] = (int32_t)draw_from(d, -part, part);
        wave.sine[h][0] = (int32_t)draw_from(d, -part, part);
    }
    for (size_t k = 0; k < WINDOW_SETS; k++) {
        wave_set(&wave, one, k, list);
        u[k] = list[0];
    }
}

/* One phase over a cycle, of any shape but the largest; one set alone is that of the
 * place told. */
static void draw_phase(struct draw *d, enum shape shape, size_t alone,
                       int16_t u[WINDOW_SETS])
{
    int64_t direct = draw_from(d, -24000, 24000), keep = draw_from(d, 500, 990);

    if (shape < NOISE)
        draw_sine(d, shape, u);
    for (size_t k = 0; k < WINDOW_SETS; k++) {
        if (shape == DIRECT)
            u[k] = clip_sample(u[k] / 2 + direct);
        if (shape == ALONE)
            u[k] = 0;
        if (shape == NOISE || (shape == ALONE && k == alone))
            u[k] = (int16_t)draw_from(d, -SAMPLE_LIMIT, SAMPLE_LIMIT);
        direct = direct * keep / 1000;
    }
}

/* Phases of a fault: each by itself; or of two the second with the current of the first
 * turned round, of three each a third of a cycle on. */
static void draw_phases(struct draw *d, size_t alone, struct fault *f)
{
    size_t mask = (size_t)draw_from(d, 1, 7), turn = draw_chance(d, 50) ? 4 : 8;
    int like = f->shape != ALONE && draw_chance(d, 50);
    int16_t u[WINDOW_SETS];

    f->phases = 0;
    for (size_t phase = 0; phase < 3; phase++) {
        if (!(mask >> phase & 1))
            continue;
        if (f->phases == 0 || !like)
            draw_phase(d, f->shape, alone, u);
        for (size_t k = 0; k < WINDOW_SETS; k++)
            f->at[k][phase] = !like || f->phases == 0 ? u[k]
                              : mask == 7 ? u[(k + turn * f->phases) % 12]
                                          : (int16_t)-u[k];
        f->phases++;
    }
}

/* The largest samples, as the weights of system y have the sign, six sets one way and
 * six the other: the largest D that an end can have. */
static void put_largest(const struct end *e, size_t y, size_t turn, struct fault *f)
{
    f->shape = LARGEST;
    f->phases = 0;
    for (size_t j = 0; j < 3; j++) {
        int64_t w = phase_weight(e, j), sign = w > 0 ? 1 : w < 0 ? -1 : 0;

        f->phases += sign != 0;
        for (size_t k = 0; k < WINDOW_SETS; k++)
            f->at[k][(y + j) % 3] =
                (int16_t)(sign * ((k + turn) % 12 < 6 ? SAMPLE_LIMIT : -SAMPLE_LIMIT));
    }
}

/* The matched number of system y of three samples at an end by itself. */
static int32_t end_number(const struct setting *s, size_t z, size_t y,
                          const int16_t at[3])
{
    struct setting alone = {.ends = 1, .power = s->power, .end = {s->end[z]}};
    int16_t list[SET_NUMBERS] = {at[0], at[1], at[2]};
    int32_t matched[SET_NUMBERS];

    match_set(&alone, list, matched);
    return matched[y];
}

/* D of system y over the cycle of a fault, and its matched numbers. */
static int64_t fault_d(const struct setting *s, size_t y, const struct fault *f,
                       int32_t u[WINDOW_SETS])
{
    for (size_t k = 0; k < WINDOW_SETS; k++)
        u[k] = end_number(s, f->end, y, f->at[k]);
    return amplitude(u, 1);
}

/* How far the square of the amplitude, before it is rounded, lies from that of half
 * above what is wanted; in units of 64/9,360. */
static int64_t square_off(const int32_t u[WINDOW_SETS], int64_t wanted)
{
    int64_t c = 0, s = 0, aim = (2 * wanted + 1) * 9360 / 128;

    for (size_t k = 0; k < WINDOW_SETS; k++) {
        c += T[k] * u[k];
        s += T[(k + 9) % 12] * u[k];
    }
    return llabs(c / 64 * (c / 64) + s / 64 * (s / 64) - aim * aim);
}

/* Steps samples that are not zero by one, each step kept that takes D no further from
 * what is wanted, and now and then another; whether D comes there. */
static int step_fault(struct draw *d, const struct setting *s, size_t y, int64_t wanted,
                      struct fault *f)
{
    int32_t u[WINDOW_SETS], was;
    int64_t now = fault_d(s, y, f, u) == wanted ? 0 : square_off(u, wanted), next;

    for (int i = 0; i < MOST_STEPS && amplitude(u, 1) != wanted; i++) {
        size_t k = (size_t)draw_from(d, 0, 11), phase = (size_t)draw_from(d, 0, 2);
        int16_t *at = &f->at[k][phase], old = *at;

        if (old == 0)
            continue;
        *at = clip_sample(old + (draw_chance(d, 50) ? 1 : -1));
        was = u[k];
        u[k] = end_number(s, f->end, y, f->at[k]);
        next = square_off(u, wanted);
        if (next <= now || draw_chance(d, 8)) {
            now = next;
        } else {
            *at = old;
            u[k] = was;
        }
    }
    return amplitude(u, 1) == wanted;
}

/* Brings a fault down to where D of system y is just as wanted; 0 when it is too small
 * for that, or no step leads there. */
static int aim_fault(struct draw *d, const struct setting *s, size_t y, int64_t wanted,
                     struct fault *f)
{
    int32_t u[WINDOW_SETS];
    int64_t full = fault_d(s, y, f, u);

    if (full < wanted || full == 0)
        return 0;
    for (size_t k = 0; k < WINDOW_SETS; k++)
        for (size_t phase = 0; phase < 3; phase++) {
            int64_t top = f->at[k][phase] * (2 * wanted + 1);
            int64_t half = top < 0 ? -full : full;

            f->at[k][phase] = clip_sample((top + half) / (2 * full));
        }
    return step_fault(d, s, y, wanted, f);
}

/* A fault of any shape but the largest. */
static void draw_fault(struct draw *d, size_t z, size_t alone, enum shape shape,
                       struct fault *f)
{
    memset(f, 0, sizeof *f);
    f->end = z;
    f->shape = shape;
    draw_phases(d, alone, f);
}

/* A fault fed from an end with just such a D of system y: of several shapes the first
 * that comes there, the largest last. */
static int draw_aimed(struct draw *d, const struct setting *s, size_t z, size_t y,
                      int64_t wanted, struct fault *f)
{
    for (int i = 0; i < 20; i++) {
        if (i < 6)
            draw_fault(d, z, (size_t)draw_from(d, 0, 11),
                       (enum shape)draw_from(d, SINE, ALONE), f);
        else
            put_largest(&s->end[z], y, (size_t)draw_from(d, 0, 11), f);
        if (aim_fault(d, s, y, wanted, f))
            return 1;
    }
    return 0;
}

/* Adds the fault's samples at set k to a list, and lets its direct current decay. */
static void add_fault(struct fault *f, size_t k, int16_t list[SET_NUMBERS])
{
    for (size_t phase = 0; phase < 3; phase++) {
        list[3 * f->end + phase] =
            clip_sample(f->at[k % 12][phase] + f->direct[phase]);
        f->direct[phase] = f->direct[phase] * f->keep / 1000;
    }
}

/* ---- Current that a system doesn't see ---- */

/* By end, the parts of it in the phases, and how many times them samples can be. */
struct unseen {
    int64_t at[MAX_ENDS][3], times[MAX_ENDS];
};

/* The greatest common divisor, of 0 and 0 it is 0. */
static int64_t divisor(int64_t a, int64_t b)
{
    while (b != 0) {
        int64_t rest = a % b;

        a = b;
        b = rest;
    }
    return a < 0 ? -a : a;
}

/* Parts that weigh nothing in system y at an end: the same in all phases where the
 * filter is on, or at right angles to the weights. */
static void hide_parts(struct draw *d, const struct end *e, size_t y, int64_t at[3])
{
    int64_t w[3], x[3], by = 0;

    for (size_t j = 0; j < 3; j++) {
        w[j] = phase_weight(e, j);
        x[j] = draw_from(d, -3, 3);
    }
    for (size_t j = 0; j < 3; j++) {
        size_t n = (j + 1) % 3, b = (j + 2) % 3;

        at[(y + j) % 3] = w[n] * x[b] - w[b] * x[n];
        by = divisor(by, at[(y + j) % 3]);
    }
    for (size_t j = 0; j < 3; j++)
        at[j] = e->filter && x[0] < 0 ? 1 : by == 0 ? 0 : at[j] / by;
}

/* Counts parts that a system doesn't see, by how it comes to that. */
static void count_unseen(const struct end *e, const int64_t at[3])
{
    int taken = 0;

    for (size_t j = 0; j < 3; j++)
        taken += phase_weight(e, j) != 0;
    if (at[0] == 0 && at[1] == 0 && at[2] == 0)
        return;
    met.unseen[at[0] == at[1] && at[1] == at[2] ? 0 : taken == 1 ? 1 : 2]++;
}

/* Current at all ends but the feeding one, or some of them, that system y doesn't
 * see. */
static void draw_unseen(struct draw *d, const struct setting *s, size_t fed, size_t y,
                        struct unseen *h)
{
    memset(h, 0, sizeof *h);
    for (size_t z = 0; z < s->ends; z++) {
        int64_t peak = 1;

        if (z == fed || draw_chance(d, 20))
            continue;
        hide_parts(d, &s->end[z], y, h->at[z]);
        count_unseen(&s->end[z], h->at[z]);
        for (size_t phase = 0; phase < 3; phase++)
            if (llabs(h->at[z][phase]) > peak)
                peak = llabs(h->at[z][phase]);
        h->times[z] = SAMPLE_LIMIT / peak;
    }
}

/* Adds some of it to a list. */
static void add_unseen(struct draw *d, const struct unseen *h,
                       int16_t list[SET_NUMBERS])
{
    for (size_t z = 0; z < MAX_ENDS; z++) {
        int64_t times = h->times[z] == 0 ? 0 : draw_spread(d, 1, h->times[z]);

        if (draw_chance(d, 50))
            times = -times;
        for (size_t phase = 0; phase < 3; phase++)
            list[3 * z + phase] =
                (int16_t)(list[3 * z + phase] + times * h->at[z][phase]);
    }
}

/* ---- Every combination at the edges ---- */

/* A combination of P, slopes and Q at their edges, ends, feeding end, its group, filter
 * and factor. */
struct combination {
    size_t p, slopes, q, ends, end, group, filter;
    enum factor factor;
};
#define COMBINATIONS (2 * 4 * 2 * 2 * 12 * MAX_ENDS * 3 * FACTORS)

/* The next digit of a number, by base. */
static size_t next_digit(size_t *n, size_t base)
{
    size_t digit = *n % base;

    *n /= base;
    return digit;
}

/* Combination number n; 0 where there is none: an end that is not there, a group other
 * than 0 at end 0, a factor below 1/2 at two ends. */
static int combination_of(size_t n, struct combination *c)
{
    c->p = next_digit(&n, 2);
    c->slopes = next_digit(&n, 4);
    c->q = next_digit(&n, 2);
    c->filter = next_digit(&n, 2);
    c->group = next_digit(&n, 12);
    c->end = next_digit(&n, MAX_ENDS);
    c->ends = 2 + next_digit(&n, 3);
    c->factor = (enum factor)n;
    return c->end < c->ends && (c->end > 0 || c->group == 0) &&
           (c->factor != BELOW || c->ends > 2);
}

/* The setting of a combination; the other ends are any of 1/2 or more. */
static void put_combination(struct draw *d, const struct combination *c,
                            struct setting *s)
{
    memset(s, 0, sizeof *s);
    s->ends = (uint8_t)c->ends;
    s->power = 1351;
    draw_rest(d, s);
    put_edges(d, c->p, c->slopes, c->q, s);
    for (size_t z = 0; z < c->ends; z++)
        s->end[z] = draw_end(d, z == c->end ? c->factor
                                            : (enum factor)draw_from(d, 0, BETWEEN));
    s->end[0].group = 0;
    s->end[c->end].group = (uint8_t)c->group;
    s->end[c->end].filter = (uint8_t)c->filter;
}

/* A cycle of a fault, in every other with current beside it that the system doesn't
 * see. The window is then fed from that end, with the D told. */
static void go_through(struct draw *d, struct watch *w, struct fault *f, size_t y,
                       int64_t wanted)
{
    const struct setting *s = &w->relay.setting;
    struct unseen h = {0};
    int64_t found;

    if (draw_chance(d, 50))
        draw_unseen(d, s, f->end, y, &h);
    for (size_t k = 0; k < WINDOW_SETS; k++) {
        int16_t list[SET_NUMBERS] = {0};

        add_fault(f, k, list);
        add_unseen(d, &h, list);
        call_sample(w, list, 0);
    }
    found = ends_amplitude(w->relay.values, (1u << s->ends) - 1, y);
    must(fed_from(s, w->relay.values, y) >> f->end & 1, "the end doesn't feed alone");
    must(found == wanted, "D is not where it is wanted");
    if (found <= s->pick_up)
        return;
    met.shape[f->shape]++;
    met.phases[f->phases]++;
}

/* The largest D, all spots that the end can reach, and a D of any size. At a factor of
 * 1/2 or more each spot is met just so. */
static void go_spots(struct draw *d, struct watch *w, size_t z, size_t n)
{
    const struct setting *s = &w->relay.setting;
    int32_t u[WINDOW_SETS];
    struct fault f = {.end = z};
    int64_t largest;

    put_largest(&s->end[z], n % 3, n % 12, &f);
    largest = fault_d(s, n % 3, &f, u);
    go_through(d, w, &f, n % 3, largest);
    for (size_t i = 0; i <= SPOTS; i++) {
        size_t y = (n + i) % 3;
        int64_t wanted = i < SPOTS ? spot_value(s, i) : draw_spread(d, 0, largest);

        if (wanted > largest)
            continue;
        if (draw_aimed(d, s, z, y, wanted, &f)) {
            go_through(d, w, &f, y, wanted);
            continue;
        }
        must(i == SPOTS || matching_factor(s, z) < FACTOR_SECOND_LOWEST,
             "a spot is not met");
        met.missed++;
    }
    must((w->sections[z] & ~(largest > 2 * s->third_section ? 7u
                             : largest > s->pick_up         ? 3u : 1u)) == 0,
         "a section that can't be reached is met");
}

/* Every combination: at a factor of 1/2 or more each section is met, below it none that
 * the largest D doesn't reach. R is D, so the first has no D above P, and the others
 * have no other: there all start. */
static void all_combinations(struct draw *d)
{
    struct combination c;
    struct setting s;
    struct watch w;

    work = "combination";
    for (work_number = 0; work_number < COMBINATIONS; work_number++) {
        if (!combination_of(work_number, &c))
            continue;
        put_combination(d, &c, &s);
        start_watch(&s, &w);
        go_spots(d, &w, c.end, work_number);
        must(c.factor == BELOW || w.sections[c.end] == 7, "a section is not met");
        met.all[c.factor]++;
        met.whole[c.factor] += w.sections[c.end] == 7;
    }
}

/* ---- Windows of any matched numbers ---- */

/* Numbers up to the limit of the record: any, of one size, or few that aren't zero. */
static void draw_numbers(struct draw *d, int32_t *values, size_t z, size_t y)
{
    int64_t top = draw_spread(d, 1, MATCHED_LIMIT), kind = draw_from(d, 0, 2);

    for (size_t k = 0; k < WINDOW_SETS; k++) {
        int64_t v = draw_from(d, -top, top);

        if (kind == 1)
            v = k < 6 ? top : -top;
        if (kind == 2 && !draw_chance(d, 15))
            v = 0;
        values[12 * k + 3 * z + y] = (int32_t)v;
    }
}

/* Moves P, 2Q or H to where D lies just there, one above or one below; not where that
 * is out of its range. */
static void aim_setting(struct draw *d, int64_t found, struct setting *s)
{
    int64_t kind = draw_from(d, 0, 2), at = found + draw_from(d, -1, 1);

    if (kind == 0 && at >= 100 && at <= 2500)
        s->pick_up = (uint16_t)at;
    if (kind == 1 && at >= 3000 && at <= 20001)
        s->third_section = (uint16_t)(at / 2);
    if (kind == 2 && at >= 2500 && at <= 30000)
        s->high_set = (uint16_t)at;
}

/* Windows of any matched numbers that a record can have, each system fed from an end of
 * its own. */
static void numbered_windows(struct draw *d)
{
    struct setting s;
    struct relay relay;
    size_t offset;

    work = "window of any numbers";
    for (work_number = 0; work_number < NUMBERED; work_number++) {
        int32_t values[WINDOW_NUMBERS] = {0};
        struct measured m[SYSTEMS];

        if (work_number % 20 == 0)
            draw_setting(d, (uint8_t)(2 + work_number / 20 % 3), &s);
        for (size_t y = 0; y < SYSTEMS; y++)
            draw_numbers(d, values, (size_t)draw_from(d, 0, s.ends - 1), y);
        measure_window(&s, values, m);
        aim_setting(d, m[draw_from(d, 0, 2)].differential, &s);
        must(relay_start(&s, &relay, &offset) == ACCEPTED, "a relay doesn't start");
        measure_window(&s, values, m);
        for (size_t y = 0; y < SYSTEMS; y++) {
            unsigned fed = fed_from(&s, values, y);

            must(fed != 0, "no end feeds");
            check_fed(&s, values, y, fed, &m[y]);
            if (m[y].differential > most.largest[1])
                most.largest[1] = m[y].differential;
        }
        told.windows++;
    }
}

/* ---- Lists of calls ---- */

/* A list: the relay under watch, a healthy bank for before and after, or none, and the
 * number of the next set. */
struct scene {
    struct watch watch;
    struct bank bank;
    int through;
    size_t k;
};

/* A set of the healthy bank, or one with no current. */
static void call_healthy(struct draw *d, struct scene *c)
{
    int16_t list[SET_NUMBERS] = {0};

    if (c->through)
        healthy_set(d, &c->watch.relay.setting, &c->bank, c->k, list);
    c->k++;
    call_sample(&c->watch, list, 1);
}

/* A set of any numbers at all ends. */
static void call_noise(struct draw *d, struct scene *c)
{
    int16_t list[SET_NUMBERS] = {0};

    for (size_t i = 0; i < 3u * c->watch.relay.setting.ends; i++)
        list[i] = (int16_t)draw_from(d, -SAMPLE_LIMIT, SAMPLE_LIMIT);
    call_sample(&c->watch, list, 0);
}

/* A fresh relay with its bank, and calls before the fault. */
static void begin_list(struct draw *d, const struct setting *s, struct scene *c)
{
    static const int16_t none[SET_NUMBERS];
    size_t n = (size_t)draw_from(d, 0, 24);

    memset(c, 0, sizeof *c);
    start_watch(s, &c->watch);
    told.lists++;
    draw_bank(d, s, &c->bank);
    if (draw_chance(d, 30))
        draw_neutral(d, s, &c->bank);
    c->through = draw_chance(d, 50);
    for (size_t i = 0; i < n; i++) {
        if (draw_chance(d, 30))
            call_other(d, &c->watch, none);
        else if (draw_chance(d, 4))
            call_noise(d, c);
        else
            call_healthy(d, c);
    }
}

/* The D that a fault of a list is aimed at: a little above P, about P, 2Q or H, above
 * H, or any. */
static int64_t draw_wanted(struct draw *d, const struct setting *s)
{
    switch (draw_from(d, 0, 5)) {
    case 0: return s->pick_up + draw_from(d, 2, 6);
    case 1: return s->pick_up + draw_from(d, -1, 1);
    case 2: return 2 * s->third_section + draw_from(d, -2, 2);
    case 3: return s->high_set + draw_from(d, -1, 1);
    case 4: return s->high_set + draw_spread(d, 2, 20000);
    default: return draw_spread(d, 50, 900000);
    }
}

/* A fault for a list; full where D can't be as wanted. Some with direct current on
 * top. */
static void list_fault(struct draw *d, const struct setting *s, size_t z, size_t y,
                       struct fault *f)
{
    struct fault full;

    draw_fault(d, z, 0, (enum shape)draw_from(d, SINE, NOISE), f);
    full = *f;
    if (!aim_fault(d, s, y, draw_wanted(d, s), f))
        *f = full;
    if (!draw_chance(d, 30))
        return;
    f->keep = draw_from(d, 500, 990);
    for (size_t phase = 0; phase < 3; phase++)
        f->direct[phase] = f->at[0][phase] / 2 + draw_from(d, -300, 300);
}

/* How many sets a fault lasts: M from a full window and a few more, or any number up to
 * that. */
static size_t draw_length(struct draw *d, const struct setting *s)
{
    size_t full = WINDOW_SETS + s->confirm;

    return draw_chance(d, 75) ? full + (size_t)draw_from(d, 0, 4)
                              : (size_t)draw_from(d, 1, (int64_t)full);
}

/* A fault: from one end, some with current beside it that the system doesn't see, some
 * from a second end as well; in some, other calls between. */
static void call_fault(struct draw *d, struct scene *c)
{
    const struct setting *s = &c->watch.relay.setting;
    size_t z = (size_t)draw_from(d, 0, s->ends - 1), y = (size_t)draw_from(d, 0, 2);
    size_t n = draw_length(d, s);
    unsigned other = draw_chance(d, 25) ? 8 : 0;
    int joined = draw_chance(d, 15);
    int fresh = !c->watch.latch[y] && c->watch.healthy >= WINDOW_SETS;
    struct fault f, second;
    struct unseen h = {0};

    list_fault(d, s, z, y, &f);
    list_fault(d, s, (z + 1) % s->ends, y, &second);
    if (!joined && draw_chance(d, 50))
        draw_unseen(d, s, z, y, &h);
    for (size_t k = 0; k < n; k++) {
        int16_t list[SET_NUMBERS] = {0};

        add_fault(&f, k, list);
        if (joined)
            add_fault(&second, k, list);
        add_unseen(d, &h, list);
        if (other != 0 && draw_chance(d, other))
            call_other(d, &c->watch, list);
        call_sample(&c->watch, list, 0);
    }
    calls.from[c->through] += fresh && c->watch.latch[y];
}

/* Lists: calls before, then faults one to three times, each with healthy sets after it
 * and mostly a reset. */
static void fault_lists(struct draw *d)
{
    struct setting s;
    struct scene c;

    work = "list";
    for (work_number = 0; work_number < LISTS; work_number++) {
        size_t faults = (size_t)draw_from(d, 1, 3);

        draw_listed(d, work_number, &s);
        begin_list(d, &s, &c);
        for (size_t i = 0; i < faults; i++) {
            call_fault(d, &c);
            for (size_t n = (size_t)draw_from(d, 0, 16); n > 0; n--)
                call_healthy(d, &c);
            if (draw_chance(d, 70))
                call_reset(d, &c.watch);
        }
    }
}

/* The feeding end in turn: one set of each cycle has current, each time at another end,
 * so every window holds one such set. Second and fifth are as large as D there, so D is
 * aimed at H where they block, else at P. */
static void turn_list(struct draw *d, struct scene *c)
{
    const struct setting *s = &c->watch.relay.setting;
    size_t y = (size_t)draw_from(d, 0, 2), z = (size_t)draw_from(d, 0, s->ends - 1);
    size_t alone = (size_t)draw_from(d, 0, 11);
    int64_t wanted = (s->flags & 3 ? s->high_set : s->pick_up) + draw_from(d, 1, 9);
    struct fault f;

    for (size_t n = 0; n < 5; n++) {
        z = (z + (size_t)draw_from(d, 1, s->ends - 1)) % s->ends;
        for (int i = 0; i < 6; i++) {
            draw_fault(d, z, alone, ALONE, &f);
            if (aim_fault(d, s, y, wanted, &f))
                break;
        }
        for (size_t k = 0; k < WINDOW_SETS; k++) {
            int16_t list[SET_NUMBERS] = {0};

            add_fault(&f, k, list);
            call_sample(&c->watch, list, 0);
        }
    }
}

/* Lists with the feeding end in turn. */
static void turn_lists(struct draw *d)
{
    struct setting s;
    struct scene c;

    work = "list with the end in turn";
    for (work_number = 0; work_number < TURNS; work_number++) {
        draw_listed(d, work_number, &s);
        s.confirm = (uint8_t)draw_from(d, 2, 24);
        begin_list(d, &s, &c);
        turn_list(d, &c);
    }
}

/* ---- Slopes that no relay starts on ---- */

/* The first D above P, up to the largest, that doesn't start at R = D; 0 where all
 * do. */
static int64_t first_quiet(const struct line *l, int64_t largest)
{
    for (int64_t d = l->p + 1; d <= largest; d++)
        if (!line_starts(l, d, d))
            return d;
    return 0;
}

/* The least slope, m1 = m2, at which some D above P doesn't start. At R = D all of the
 * line beyond P is one slope m: 200 D > 200 P + m (D - P), or (200 - m) (D - P) > 0. So
 * up to 199 every D above P starts, and at 200, where both sides are the same, none. */
static int64_t least_slope(int64_t p, int64_t q, int64_t largest)
{
    struct line l = {p, 10, 10, q};

    while (first_quiet(&l, largest) == 0)
        l.m1 = l.m2 = l.m2 + 1;
    return l.m2;
}

/* With m2 250 at Q 1,500 it is some D of the third section: at P 100 and m1 10 it is
 * 190 * 2,900 > 50 (D - 3,000) that must hold, and from 14,020 on it doesn't. */
static void wrong_slopes(int64_t largest)
{
    const struct line steep = {100, 10, 250, 1500};

    work = "slope";
    must(first_quiet(&steep, largest) == 14020, "m2 250 doesn't hold D 14,020 back");
    most.slope = least_slope(100, 1500, largest);
    must(most.slope == 200, "the least slope isn't 200");
    must(least_slope(100, 10000, largest) == 200, "the least slope isn't 200");
    must(least_slope(2500, 1500, largest) == 200, "the least slope isn't 200");
    must(least_slope(2500, 10000, largest) == 200, "the least slope isn't 200");
}

/* ---- What there was ---- */

/* Prints numbers with a comma between; whether none is 0. */
static int tell(const char *what, const unsigned long *number, size_t n)
{
    int all = 1;

    printf("%s", what);
    for (size_t i = 0; i < n; i++) {
        printf("%s%lu", i == 0 ? " " : ", ", number[i]);
        all &= number[i] != 0;
    }
    return all;
}

/* Tells settings, sets and windows, and the combinations: each of them is met, and at a
 * factor of 1/2 or more in all three sections. */
static int combinations_told(void)
{
    int all = 1;

    printf("faults: %lu settings, factors %lu to %lu; %lu lists; %lu sets, %lu full "
           "windows\n", told.settings, (unsigned long)told.lowest,
           (unsigned long)told.highest, told.lists, told.sets, told.windows);
    all &= tell("faults: combinations of P, slopes, Q, ends, feeding end, group and "
                "filter at factors 1/2, 16, between, below 1/2:", met.all, FACTORS);
    all &= tell("; met in all three sections", met.whole, FACTORS);
    printf("\n");
    for (size_t i = LOWEST; i <= BETWEEN; i++)
        all &= met.all[i] == 2400 && met.whole[i] == 2400;
    return all && met.all[BELOW] == 1984;
}

/* Tells the systems fed from one end, by ends and end. */
static int ends_told(void)
{
    int all = told.none != 0;

    printf("faults: fed from one end, without and with start:");
    for (size_t e = 0; e < 3; e++)
        for (size_t z = 0; z < e + 2; z++) {
            printf("%s end %zu of %zu", e + z == 0 ? "" : ";", z, e + 2);
            all &= tell("", told.fed[e][z], 2);
        }
    printf("; no current %lu\n", told.none);
    return all;
}

/* Tells sections, spots and blocking of systems fed from one end. */
static int places_told(void)
{
    int all = tell("faults: R = D up to P, up to 2Q, above:", told.section, 3);

    all &= tell("; one below P, at P, one above:", told.spot, 3);
    all &= tell("; of 2Q:", told.spot + 3, 3);
    all &= tell("; of H:", told.spot + 6, 3);
    all &= tell("; above H", &told.high, 1);
    all &= tell("\nfaults: blocked above P by own harmonics, by another system alone:",
                told.blocked, 2);
    all &= tell("; blocked above H", told.blocked + 2, 1);
    all &= tell("; fed from several ends, above P without start", &told.several, 1);
    printf("\n");
    return all;
}

/* Tells the faults gone through. */
static int faults_told(void)
{
    int all = tell("faults: that start, of one, two, three phases:", met.phases + 1, 3);

    all &= tell("; sine, with second, fifth, both, direct current; noise, one set, "
                "largest:", met.shape, SHAPES);
    printf("; not aimed %lu", met.missed);
    all &= tell("\nfaults: ends beside with equal currents, in phases not taken, other "
                "unseen:", met.unseen, 3);
    all &= tell("; starts with such in all twelve sets", &met.hidden, 1);
    printf("\n");
    return all;
}

/* Tells calls and latches. */
static int calls_told(void)
{
    int all = tell("faults: refused 14, 10, 11:", calls.refused, 3);

    all &= tell("; resets by call, by page:", calls.resets, 2);
    all &= tell("; reads, writes:", calls.page, 2);
    all &= tell("; refused of these", &calls.page_refused, 1);
    printf("\nfaults: latched just at the M-th set in a row, M 1, between, 24:");
    for (size_t i = 0; i < WAYS; i++) {
        printf("%s %s", i == 0 ? "" : ";", WAY_NAME[i]);
        all &= tell("", calls.exact[i], 3);
    }
    all &= tell("\nfaults: latched with the feeding end in turn", &calls.turn, 1);
    all &= tell("; above H from several ends", &calls.several, 1);
    all &= tell("; with other calls between", &calls.strewn, 1);
    all &= tell("; from no current, from through-current:", calls.from, 2);
    all &= tell("; cleared by call, by page:", calls.cleared, 2);
    printf("\n");
    return all;
}

/* Tells how far apart a healthy bank and a fault lie. The largest D from samples is of
 * matched numbers 761,873 six sets one way and six the other, c 253,958 and s 947,783;
 * of any numbers 800,000, c 266,667 and s 995,214. */
static int most_told(void)
{
    const int64_t *l = most.least, *h = most.healthy;
    int all = 1;

    printf("faults: largest D from samples %ld, of any matched numbers %ld\n",
           (long)most.largest[0], (long)most.largest[1]);
    printf("faults: at 2, 3, 4 ends least D that starts %ld, %ld, %ld; largest of "
           "healthy banks %ld, %ld, %ld, of", (long)l[0], (long)l[1], (long)l[2],
           (long)h[0], (long)h[1], (long)h[2]);
    all &= tell("", most.quiet, 3);
    printf("; from its limit to the lowest P %d, %d, %d\n", APART[2], APART[3],
           APART[4]);
    return all && l[0] == 101 && l[1] == 101 && l[2] == 101 &&
           most.largest[0] == 981217 && most.largest[1] == 1030321;
}

/* Tells the wrong rules, each with how often it was seen to be wrong. */
static void tell_wrong(void)
{
    work = "wrong rule";
    for (work_number = 0; work_number < WRONGS; work_number++) {
        printf("faults: %s: wrong %lu times\n", WRONG_NAME[work_number],
               calls.wrong[work_number]);
        must(calls.wrong[work_number] != 0, "nothing shows it wrong");
    }
    printf("faults: least slope, m1 = m2, at which a D above P doesn't start: %ld\n",
           (long)most.slope);
}

int main(void)
{
    struct draw d = {0xFA017}, numbers = {0x2B3C5}, lists = {0x11575}, turn = {0x7042};
    int all;

    all_combinations(&d);
    numbered_windows(&numbers);
    fault_lists(&lists);
    turn_lists(&turn);
    wrong_slopes(most.largest[1]);
    all = combinations_told() & ends_told() & places_told() & faults_told();
    all &= calls_told() & most_told();
    tell_wrong();
    if (all)
        return fflush(stdout) != 0;
    fputs("faults: something that must be there is missing\n", stderr);
    return 1;
}
