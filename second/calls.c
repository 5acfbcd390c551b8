/* Whole records of calls: `calls input` writes the blocks, `calls expect` the
 * answers. The first byte of a block tells its kind: a setting block starts a
 * relay, each set of a sample block is one sample call, a reset block is one
 * reset call, and a list block one sample call of a list of any length. A page
 * block holds up to 42 reads and writes of the register page: byte 1 tells how
 * many, and each takes 12 bytes from 4 on, byte 0 of them 0 for a read or 1 for
 * a write, byte 1 the value written, and bytes 4 to 11 the offset. A view block
 * is one read of each byte of the page. Between calls, a change block puts a part
 * of the relay record to another value, and a print block has the record
 * printed. A begin block starts a relay on the setting values that the record
 * holds, and writes them to a buffer of 600 bytes and then to one of 511: three
 * lines, `start N`, `write N` and `short N`; the record stays as it is. A setting
 * block that is refused, by its reader or by the start on what is read, leaves no
 * relay, and what comes then is passed over up to the next setting block. Where
 * setting, start or writer answer 5, a space and the offset come behind it. A cycle
 * block holds twelve sets of two bytes a number from byte 4 on, and in bytes 292 to
 * 295 how many sample calls it makes: they go through these sets over and over, and
 * their lines are short: of a measured set `H`, its overcurrent trips as one number,
 * and the four sums. Some records come once more with every sample negated: the
 * answers must be the same. */
#include "parts.h"

#include <stdarg.h>
#include <stdio.h>
#include <stdlib.h>
#include <string.h>

#define RECORDS 300         /* of calls alone */
#define ROUND 10            /* changes in a record of calls and changes */
#define ROUNDS (3 * CHANGES / ROUND)
#define WATCHED 30          /* records of sets watched one by one */
#define FAULTY 36           /* records of setting blocks with faults */
#define FAULTY_BLOCKS 200   /* of them in a record */
#define PAIRED 12           /* records of values with neighbours wrong */
#define UNSOUND 36          /* records of values with any wrong */
#define UNSOUND_CASES 12    /* times that values are made wrong in such a record */
#define COMMON 24           /* records of common blocking, with a draw of their own */
#define OVER 40             /* records of overcurrent, with a draw of their own */
#define STEADY 38           /* values of j at which there are runs */
#define SLOPED 30           /* records of slopes each: values, blocks, calls */
#define LIMITS (RECORDS + ROUNDS)
#define FAULTY_FROM (LIMITS + 1 + WATCHED)
#define VALUES_FROM (FAULTY_FROM + FAULTY)
#define COMMON_FROM (VALUES_FROM + PAIRED + UNSOUND)
#define OVER_FROM (COMMON_FROM + COMMON)
#define RUNS_FROM (OVER_FROM + OVER)
#define LONG_FROM (RUNS_FROM + CURVES * STEADY)
#define SLOPES_FROM (LONG_FROM + CURVES)
#define ALL_RECORDS (SLOPES_FROM + 3 * SLOPED)
#define MOST_BLOCKS 250
#define MOST_TEXT 65536     /* that a record's answers take */
#define TURNED 11           /* one of so many records of calls comes turned too */
#define PAGE_CALLS 42       /* that a page block can hold */
#define PAGE_CALL_BYTES 12
#define PLACES 470          /* fields of refusal 5 in a block, spare bytes too */
#define NEAR_PLACES 37      /* of them in the first 77 bytes */
#define NUMBERS 28          /* of them not spare bytes */
#define MOST_FAULTS 6       /* fields made wrong at once */
#define BEGIN_KIND 0x42
#define CYCLE_KIND 0x43
#define PAGE_KIND 0x47
#define LIST_KIND 0x4C
#define PRINT_KIND 0x50
#define RESET_KIND 0x52
#define SAMPLE_KIND 0x53
#define SETTING_KIND 0x54
#define VIEW_KIND 0x56

enum scene_kind { HEALTHY, FAULT, INRUSH, BURSTS, NOISE, LONE, LOADS };

/* One record: its blocks, whether all its sets are a healthy bank's, and such a
 * bank's with neutral current, and whether the relay record came through each refusal
 * 12 and each begin block as it was; and of a run the number of the measured set at
 * which its element trips. */
struct record {
    uint8_t block[MOST_BLOCKS][BLOCK_BYTES];
    size_t blocks, calls, followed, trips_at;
    int healthy, neutral, kept;
};

/* What the calls of a record come to: the lines, the relay after them, sets
 * that are measured, that start and that show a latch, page and view blocks, and
 * how far byte 5 was seen: 1 at a zero, 2 at a one after it. And sets under common
 * blocking where document 01 holds back more systems than document 02, card 4, where
 * one of these trips, where one with harmonics has D at P, and where all are
 * blocked. The lines of a run go out when there are many; of the sets that its cycle
 * blocks measure, how many there are, and which is the first that shows a trip. */
struct outcome {
    char text[MOST_TEXT];
    size_t length, cycled, tripped_at;
    int run;
    struct relay relay;
    unsigned measured, started, latched, paged, seen, common[4];
};

/* Calls by what is asked, and what may be wrong with a record. */
enum asked { SOUND_SET, UNSOUND_SET, NO_SET, RESET, ASKED };
enum fault {
    NONE, BREAKS_4, BREAKS_5, BREAKS_6, BREAKS_7, BREAKS_17, FILL, NUMBER, COUNTER,
    PAGE, SUM, FAULTS
};

/* What may be wrong with a page call, as bits: refusals 15, 16 and 12. */
enum { BEYOND = 1, FIXED = 2, INADMISSIBLE = 4, PAGE_FAULTS = 8 };

/* What a run has: records, those of healthy banks, those of them with neutral
 * current, answers to sample and reset calls, refusals 12 by the call, changes by
 * their part and by the fault that they make; of the turned records how many there
 * are, and their sets measured, that start and that show a latch; and the counts of
 * the records of common blocking. */
static struct {
    unsigned records, healthy, neutral, answers, declined[ASKED];
    unsigned changes[PART_KINDS][FAULTS], turned[4], common[4];
} told;

/* What a run has of the page: records with page or view blocks, those of them
 * that are turned, views of a full window, of another, of another with a latch,
 * and refused; page calls by read or write and all their faults, those whose
 * answer isn't the first fault; reads by byte, and writes by byte and value;
 * resets by call and by page, of any relay and of one with a latch; flags raised
 * together, and cleared together; starts and latches that go on and raise no
 * flag, and flags raised beside such; byte 5 seen to rise and to fall; and flags
 * and mask changed to 7, 8, 255. */
static struct {
    unsigned records, turned, views[4], calls[2][PAGE_FAULTS], wrong;
    unsigned read[PAGE_BYTES], written[10], resets[4], raised[8], cleared[8];
    unsigned goes_on[2], beside[2], turns[2], changed[6];
} paged;

/* What a run has of overcurrent: elements by curve and j, below 11, 11, up to 199,
 * 200 and above; elements that trip, by end; sums cleared and grown, of elements
 * without a trip and with one; sums that come to the limit, and that are stopped
 * there again; sums that stay at a refused set, while the window fills, at curve 0,
 * and at an unused end; resets by call and by page with a sum, with a trip, and with
 * either at an unused end; refusals 12 by a sum, of samples, resets and the page;
 * and lines of cycle blocks: filling, refused and measured. */
static struct {
    unsigned tenths[CURVES][5], trips[MAX_ENDS], cleared[2], grown[2], limit[2];
    unsigned stays[4], resets[2][3], declined[3], lines[3];
} over;

/* A setting is judged in a block, or by its values alone. For both, the fields of
 * refusal 5 in block order; values have no spare bytes. 17 comes behind 7 in a block,
 * which is read first, and between 5 and 6 in values. */
enum judged { IN_BLOCK, IN_VALUES, JUDGED };
static const size_t places[JUDGED] = {PLACES, NUMBERS};
static struct field place[JUDGED][PLACES];

/* What a run has of judged settings: answers by refusal; answers 5 by how many
 * fields are wrong, up to six, for 2, 3 and 4 ends by the first wrong field, and
 * by fields that are wrong together with the one before; where the first is of an
 * unused end, by its only byte that isn't zero, from 36 on; where it is X at curve
 * 0, X at another, or the curve, for 2, 3 and 4 ends; answers 5 where 6 or 7 would
 * come otherwise; and answers that are not right. */
static struct {
    unsigned refused[SLOPES_FALL + 1], at_once[MOST_FAULTS + 1];
    unsigned first[3][PLACES], pair[3][PLACES];
    unsigned lone[2][24], over[3][3], factors[2], wrong;
} faulty[JUDGED];

/* What a run has of slopes that fall: settings by refusal, judged in a block and by
 * their values; starts refused with 17 by what the writer answers; settings with both
 * slopes the same that start; changes of one slope in a record: to fall, the same,
 * and others; refusals 12 by such slopes: of samples that are sound, and that 10, 11
 * and 14 would decline too, of resets, reads and writes; and page calls on such a
 * record that meet 15 (read, write) and 16 before. */
static struct {
    unsigned judged[JUDGED][SLOPES_FALL + 1], written[FACTOR_TOO_LOW + 1];
    unsigned same[JUDGED], changes[3], samples[4], others[3], pages[3];
} slopes;

/* How fields are made wrong: one below the range, one above, all ones, by one
 * byte, or by one byte of a zero; which byte that one is; faults beside refusals
 * 2, 3 and 4 of a block and 4 of values; and begin blocks that are passed over. */
static struct {
    unsigned how[5], byte[4], beside[4], passed;
} made;

/* The lines that were written down. */
static int put_text(const struct outcome *out)
{
    return fwrite(out->text, 1, out->length, stdout) == out->length;
}

/* Writes a part of an answer down; nowhere while a record is only followed. */
static struct outcome *heard;
static void say(const char *format, ...)
{
    va_list list;

    if (heard == NULL)
        return;
    va_start(list, format);
    heard->length += (size_t)vsnprintf(heard->text + heard->length,
                                       MOST_TEXT - heard->length, format, list);
    va_end(list);
    if (heard->run && heard->length > MOST_TEXT / 2 && put_text(heard))
        heard->length = 0;
    if (heard->length >= MOST_TEXT) {
        fputs("calls: no room for a record's answers\n", stderr);
        exit(1);
    }
}

/* What goes on at the bank: a fault now on, now off, for some sets; of a lone
 * fault also its phase, and how far the current of the next one swings. */
struct scene {
    struct setting setting;
    enum scene_kind kind;
    struct wave fault;
    struct bank bank;
    size_t time, phase;
    int on;
    int64_t left, swing;
};

/* The next block of a record, all zero. */
static uint8_t *next_block(struct record *r)
{
    uint8_t *block = r->block[r->blocks];

    if (r->blocks++ == MOST_BLOCKS) {
        fputs("calls: no room for a record's blocks\n", stderr);
        exit(1);
    }
    memset(block, 0, BLOCK_BYTES);
    return block;
}

/* Puts the filter off at two ends, or at all. */
static void put_filters_off(struct draw *d, struct setting *s)
{
    size_t a = (size_t)draw_from(d, 0, s->ends - 1);
    size_t b = (a + (size_t)draw_from(d, 1, s->ends - 1)) % s->ends;
    int all = draw_chance(d, 50);

    for (size_t z = 0; z < s->ends; z++)
        if (all || z == a || z == b)
            s->end[z].filter = 0;
}

/* A healthy bank; half of those that can have neutral current have it. */
static void draw_through(struct draw *d, struct scene *scene)
{
    draw_bank(d, &scene->setting, &scene->bank);
    if (draw_chance(d, 50))
        draw_neutral(d, &scene->setting, &scene->bank);
}

/* A fault of any size; but for plain faults with harmonics. */
static void draw_fault(struct draw *d, struct scene *scene)
{
    unsigned harmonics = scene->kind == FAULT ? 0 : (unsigned)draw_from(d, 0, 3);

    draw_wave(d, &scene->setting, draw_spread(d, 400, 40000), harmonics,
              &scene->fault);
}

/* Faults until one's D can be the high-set; blocking then leaves the trip to
 * the high-set alone. */
static void aim_scene(struct draw *d, struct scene *scene)
{
    int16_t list[WINDOW_NUMBERS];
    int tries = 20;

    do {
        draw_fault(d, scene);
        for (size_t k = 0; k < WINDOW_SETS; k++)
            wave_set(&scene->fault, &scene->setting, k, list + 12 * k);
    } while (!aim_high_set(d, list, &scene->setting) && --tries != 0);
    scene->setting.flags |= BLOCK_ON_SECOND | BLOCK_ON_FIFTH;
    scene->setting.second = scene->setting.fifth = 10;
    scene->setting.confirm = (uint8_t)draw_from(d, 1, 3);
}

/* Scene number i: kinds in turn, and for each kind all confirm counts in
 * turn; every third with factors that make halves; mostly low pick-up. Most healthy
 * banks have the filter off at two ends or more. */
static void draw_scene(struct draw *d, size_t i, struct scene *scene)
{
    static const enum scene_kind kind[10] = {HEALTHY, FAULT, INRUSH, BURSTS, NOISE,
                                             HEALTHY, FAULT, INRUSH, BURSTS, HEALTHY};
    struct setting *s = &scene->setting;

    memset(scene, 0, sizeof *scene);
    scene->kind = kind[i % 10];
    draw_setting(d, (uint8_t)draw_from(d, 2, 4), s);
    if (i % 3 == 1)
        draw_eighths(d, s);
    s->confirm = (uint8_t)(1 + i / 10 % 24);
    s->pick_up = (uint16_t)draw_from(d, 100, draw_chance(d, 70) ? 600 : 2500);
    if (scene->kind == HEALTHY && draw_chance(d, 70))
        most_sensitive(s);
    if (scene->kind == HEALTHY && draw_chance(d, 70))
        put_filters_off(d, s);
    if (scene->kind == INRUSH)
        s->flags |= (uint8_t)draw_from(d, 1, 3);
    draw_through(d, scene);
    draw_fault(d, scene);
    if (scene->kind == INRUSH && draw_chance(d, 40))
        aim_scene(d, scene);
    scene->left = draw_from(d, 1, 15);
}

/* A current at set k with harmonics of three fifths: its fundamental goes from P
 * plus the swing down to P less the swing, and up again, in 48 sets. */
static int16_t swinging_sample(const struct scene *scene, size_t k)
{
    int64_t turn = (int64_t)(k % 48), step = turn < 24 ? 12 - turn : turn - 36;
    int32_t level = (int32_t)(scene->setting.pick_up + scene->swing * step / 12);
    struct wave wave = {.cosine = {{level}, {3 * level / 5}, {3 * level / 5}}};
    int16_t list[SET_NUMBERS];

    wave_set(&wave, &scene->setting, k, list);
    return list[0];
}

/* A lone fault, now on, now off; the next phase is unloaded, or its current swings
 * about P; the last is unloaded. */
static void lone_set(struct draw *d, struct scene *scene, int16_t *list)
{
    size_t k = scene->time++, next = (scene->phase + 1) % SYSTEMS;

    if (scene->left-- == 0) {
        scene->on = !scene->on;
        scene->left = draw_from(d, 6, 40);
    }
    if (scene->on)
        wave_set(&scene->fault, &scene->setting, k, list);
    list[next] = scene->swing == 0 ? unloaded_sample(k) : swinging_sample(scene, k);
    list[(scene->phase + 2) % SYSTEMS] = unloaded_sample(k + 1);
}

/* The size of a load, by hundredths of its j: none, below 11, about 11, between,
 * about 200, above. */
static int64_t draw_size(struct draw *d)
{
    static const int32_t size[6][2] = {{0, 0},         {200, 1090},
                                       {1080, 1130},   {1200, 19900},
                                       {19980, 20120}, {20100, 60000}};
    int64_t kind = draw_from(d, 0, 5);

    return draw_from(d, size[kind][0], size[kind][1]);
}

/* A load at each end, so large that its A comes near to the drawn size. */
static void draw_loads(struct draw *d, struct scene *scene)
{
    const struct setting *s = &scene->setting;
    int64_t x = s->curve == 0 ? 300 : s->overcurrent, a, wanted = 0;
    int32_t *c = scene->fault.cosine[0], *q = scene->fault.sine[0];
    int32_t values[WINDOW_NUMBERS];
    int16_t list[SET_NUMBERS];

    draw_wave(d, s, 4000, 0, &scene->fault);
    for (size_t k = 0; k < WINDOW_SETS; k++) {
        wave_set(&scene->fault, s, k, list);
        match_set(s, list, values + SET_NUMBERS * k);
    }
    for (size_t i = 0; i < 3u * s->ends; i++) {
        a = end_amplitude(values, i / 3);
        if (i % 3 == 0)
            wanted = draw_size(d) * x / 1000;
        c[i] = a == 0 ? 0 : clip_sample(c[i] * wanted / a);
        q[i] = a == 0 ? 0 : clip_sample(q[i] * wanted / a);
    }
}

/* Loads that last for some sets. */
static void load_set(struct draw *d, struct scene *scene, int16_t *list)
{
    if (scene->left-- == 0) {
        draw_loads(d, scene);
        scene->left = draw_from(d, 6, 30);
    }
    wave_set(&scene->fault, &scene->setting, scene->time++, list);
}

/* The next set of the scene; off, a fault leaves through current or none. */
static void scene_set(struct draw *d, struct scene *scene, int16_t *list)
{
    const struct setting *s = &scene->setting;

    memset(list, 0, SET_NUMBERS * sizeof list[0]);
    if (scene->kind == LONE) {
        lone_set(d, scene, list);
        return;
    }
    if (scene->kind == LOADS) {
        load_set(d, scene, list);
        return;
    }
    if (scene->kind == NOISE) {
        for (size_t i = 0; i < 3u * s->ends; i++)
            list[i] = (int16_t)draw_from(d, -SAMPLE_LIMIT, SAMPLE_LIMIT);
        return;
    }
    if (scene->kind != HEALTHY && scene->left-- == 0) {
        scene->on = !scene->on;
        scene->left = draw_from(d, 1, scene->kind == BURSTS ? 16 : 60);
        if (draw_chance(d, 40))
            draw_fault(d, scene);
    }
    if (scene->on)
        wave_set(&scene->fault, s, scene->time, list);
    else if (scene->kind == HEALTHY || scene->time % 64 < 32)
        healthy_set(d, s, &scene->bank, scene->time, list);
    scene->time++;
}

/* Spoils one set of 25. */
static void maybe_spoil(struct draw *d, const struct setting *s, int16_t *list)
{
    if (draw_chance(d, 4))
        spoil_set(d, s, list);
}

/* A sample block of so many sets of the scene. */
static void add_sets(struct draw *d, struct scene *scene, struct record *r,
                     size_t sets, int spoil)
{
    int16_t list[BLOCK_NUMBERS];

    for (size_t i = 0; i < sets; i++) {
        scene_set(d, scene, list + 12 * i);
        if (spoil)
            maybe_spoil(d, &scene->setting, list + 12 * i);
    }
    write_samples(next_block(r), BLOCK_BYTES, 0, list, 12 * sets);
    r->calls += sets;
}

/* A sample block of up to 21 sets. */
static void add_samples(struct draw *d, struct scene *scene, struct record *r,
                        int spoil)
{
    add_sets(d, scene, r, (size_t)draw_from(d, 0, BLOCK_SETS), spoil);
}

/* A sample block that its reader refuses: 2, 8 or 9; makes no call. */
static void add_refused_samples(struct draw *d, struct scene *scene,
                                struct record *r)
{
    uint8_t *block;
    int64_t kind = draw_from(d, 0, 4);
    size_t calls = r->calls;

    add_samples(d, scene, r, 0);
    block = r->block[r->blocks - 1];
    if (kind == 0)
        block[draw_from(d, 1, 511)] ^= (uint8_t)(1u << draw_from(d, 0, 7));
    else if (kind == 1)
        block[1] = (uint8_t)draw_from(d, 22, 255);
    else if (kind == 2)
        block[draw_from(d, 2, 3)] = (uint8_t)draw_from(d, 1, 255);
    else
        block[draw_from(d, 4 + 24 * block[1], 509)] = (uint8_t)draw_from(d, 1, 255);
    if (kind != 0)
        seal_block(block);
    r->calls = calls;
}

/* So many numbers from byte 4 of a block on. */
static void lay_numbers(const int16_t *list, size_t n, uint8_t *block)
{
    for (size_t i = 0; i < n; i++) {
        block[4 + 2 * i] = (uint8_t)list[i];
        block[5 + 2 * i] = (uint8_t)((uint16_t)list[i] >> 8);
    }
}

/* These numbers out of the block. */
static void take_numbers(const uint8_t *block, size_t n, int16_t *list)
{
    for (size_t i = 0; i < n; i++)
        list[i] = (int16_t)(uint16_t)(block[4 + 2 * i] | block[5 + 2 * i] << 8);
}

/* So many numbers into a list block. */
static void lay_list(const int16_t *list, size_t n, uint8_t *block)
{
    block[0] = LIST_KIND;
    block[1] = (uint8_t)n;
    lay_numbers(list, n, block);
}

/* The numbers out of a list block, and how many they are. */
static size_t take_list(const uint8_t *block, int16_t *list)
{
    take_numbers(block, block[1], list);
    return block[1];
}

/* How many calls a cycle block makes. */
static const struct field CYCLE_CALLS = {292, 4, 0, UINT32_MAX};

/* A cycle block of these twelve sets. */
static void add_cycle(struct record *r, const int16_t *list, size_t calls)
{
    uint8_t *block = next_block(r);

    block[0] = CYCLE_KIND;
    lay_numbers(list, WINDOW_NUMBERS, block);
    put_field(block, &CYCLE_CALLS, (uint32_t)calls);
    r->calls += calls;
}

/* A list block of these numbers. */
static void add_numbers(struct record *r, const int16_t *list, size_t n)
{
    lay_list(list, n, next_block(r));
    r->calls++;
}

/* A list block; of twelve numbers it holds a set of the scene. */
static void add_list(struct draw *d, struct scene *scene, struct record *r)
{
    static const uint8_t length[6] = {0, 11, 13, 24, 252, 36};
    size_t n = draw_chance(d, 50) ? 12 : length[draw_from(d, 0, 5)];
    int16_t list[BLOCK_NUMBERS];

    if (draw_chance(d, 10))
        n = (size_t)draw_from(d, 0, BLOCK_NUMBERS);
    for (size_t i = 0; i < n; i++)
        list[i] = (int16_t)draw_from(d, -32768, 32767);
    if (n == 12) {
        scene_set(d, scene, list);
        maybe_spoil(d, &scene->setting, list);
    }
    add_numbers(r, list, n);
}

/* A reset call. */
static void add_reset(struct record *r)
{
    next_block(r)[0] = RESET_KIND;
    r->calls++;
}

/* A page call into its twelve bytes. */
static void lay_page_call(struct page_call call, uint8_t *at)
{
    at[0] = call.write;
    at[1] = call.value;
    for (size_t i = 0; i < 8; i++)
        at[4 + i] = (uint8_t)(call.offset >> (8 * i));
}

/* The page call out of its twelve bytes. */
static struct page_call take_page_call(const uint8_t *at)
{
    struct page_call call = {at[0], at[1], 0};

    for (size_t i = 8; i > 0; i--)
        call.offset = call.offset << 8 | at[3 + i];
    return call;
}

/* A page block of so many calls. */
static void add_page_calls(struct record *r, const struct page_call *call, size_t n)
{
    uint8_t *block = next_block(r);

    block[0] = PAGE_KIND;
    block[1] = (uint8_t)n;
    for (size_t i = 0; i < n; i++)
        lay_page_call(call[i], block + 4 + PAGE_CALL_BYTES * i);
}

/* A page block of any calls, mostly few. */
static void add_page(struct draw *d, struct record *r)
{
    struct page_call call[PAGE_CALLS];
    size_t n = draw_chance(d, 2) ? 0 : (size_t)draw_spread(d, 1, PAGE_CALLS);

    for (size_t i = 0; i < n; i++)
        call[i] = draw_page_call(d);
    add_page_calls(r, call, n);
}

/* A view block. */
static void add_view(struct record *r)
{
    next_block(r)[0] = VIEW_KIND;
}

/* Now and then a page block, a view block or both. */
static void maybe_page(struct draw *d, struct record *r)
{
    if (draw_chance(d, 40))
        add_page(d, r);
    if (draw_chance(d, 12))
        add_view(r);
}

/* Some sets one by one: after each the interrupt mask is put, masks, flags and
 * byte 5 are read, flags are cleared, all or one, and are read again. */
static void add_watched(struct draw *d, struct scene *scene, struct record *r)
{
    for (int64_t n = draw_from(d, 2, 6); n > 0; n--) {
        uint8_t mask = (uint8_t)draw_from(d, 0, 255);
        uint8_t one = (uint8_t)(1u << draw_from(d, 0, 2));
        uint8_t clear = draw_chance(d, 60) ? 255 : one;
        const struct page_call call[9] = {
            {1, mask, 4}, {0, 0, 0}, {0, 0, 1}, {0, 0, 2}, {0, 0, 3}, {0, 0, 5},
            {1, clear, 3}, {0, 0, 3}, {0, 0, 5}};

        add_sets(d, scene, r, 1, 1);
        add_page_calls(r, call, 9);
    }
}

/* A record of 20 to 120 calls, and page calls between them, on a relay that
 * starts. */
static void build_calls(struct draw *d, size_t i, struct record *r)
{
    struct scene scene;
    size_t wanted = (size_t)draw_from(d, 20, 99);

    draw_scene(d, i, &scene);
    r->healthy = scene.kind == HEALTHY;
    r->neutral = r->healthy && scene.bank.neutral;
    lay_setting(&scene.setting, next_block(r));
    while (r->calls < wanted) {
        int64_t kind = draw_from(d, 0, 99);

        if (kind < 50)
            add_samples(d, &scene, r, kind < 30);
        else if (kind < 80)
            add_list(d, &scene, r);
        else if (kind < 88 || r->blocks > MOST_BLOCKS / 2)
            add_reset(r);
        else if (kind < 96)
            add_watched(d, &scene, r);
        else
            add_refused_samples(d, &scene, r);
        maybe_page(d, r);
    }
}

/* A record of sets watched one by one: short faults, few sets to confirm, and
 * all groups 0 without filter, so that each system starts by itself. */
static void build_watched(struct draw *d, size_t i, struct record *r)
{
    struct scene scene;
    struct setting *s = &scene.setting;

    draw_scene(d, i, &scene);
    scene.kind = BURSTS;
    s->confirm = (uint8_t)draw_from(d, 1, 3);
    s->pick_up = (uint16_t)draw_from(d, 100, 600);
    for (size_t z = 0; z < s->ends; z++)
        s->end[z].group = s->end[z].filter = 0;
    draw_through(d, &scene);
    draw_fault(d, &scene);
    lay_setting(s, next_block(r));
    add_sets(d, &scene, r, (size_t)draw_from(d, 9, 12), 0);
    for (int k = 0; k < 10; k++) {
        add_watched(d, &scene, r);
        maybe_page(d, r);
        if (draw_chance(d, 25))
            add_reset(r);
    }
}

/* Scene number i of a lone fault under common blocking (02, card 4): 2, 3 and 4 ends,
 * each fault phase, second and fifth, and swings, each in turn. All groups are 0
 * without filter and end 0 has factor 1, so that each phase is a system by itself. */
static void draw_lone(struct draw *d, size_t i, struct scene *scene)
{
    struct setting *s = &scene->setting;
    uint16_t p = (uint16_t)draw_from(d, 100, 600);
    const int64_t swing[4] = {0, 12, p / 2, p};

    memset(scene, 0, sizeof *scene);
    scene->kind = LONE;
    scene->swing = swing[i % 4];
    scene->phase = i / 8 % SYSTEMS;
    scene->left = draw_from(d, 6, 40);
    draw_setting(d, (uint8_t)(2 + i % 3), s);
    draw_eighths(d, s);
    s->end[0].current = 1000;
    s->confirm = (uint8_t)draw_from(d, 1, 4);
    s->pick_up = p;
    s->slope1 = s->slope2 = (uint16_t)draw_from(d, 10, 100);
    s->fifth = (uint16_t)draw_from(d, 10, 50);
    s->flags = (uint8_t)(COMMON_BLOCKING + 1 + i / 4 % 3);
    if (scene->swing == 0)
        s->flags |= BLOCK_ON_SECOND;
    for (size_t z = 0; z < s->ends; z++) {
        s->end[z].group = s->end[z].filter = 0;
        scene->fault.cosine[0][3 * z + scene->phase] = (int32_t)draw_from(d, 0, 1500);
        scene->fault.sine[0][3 * z + scene->phase] = (int32_t)draw_from(d, 600, 1500);
    }
}

/* A record of a lone fault under common blocking: whole blocks and sets watched one
 * by one in turn, page calls and resets between. */
static void build_common(struct draw *d, size_t i, struct record *r)
{
    struct scene scene;

    draw_lone(d, i, &scene);
    lay_setting(&scene.setting, next_block(r));
    for (int k = 0; k < 6; k++) {
        add_sets(d, &scene, r, BLOCK_SETS, 0);
        add_watched(d, &scene, r);
        maybe_page(d, r);
        if (k % 2 == 1)
            add_reset(r);
    }
}

/* Changes a sound setting block in a way that may lead to a refusal. */
static void damage_setting(struct draw *d, int wanted, uint8_t *block)
{
    const struct field *f = &FIELD[draw_from(d, 1, PLAIN_FIELDS - 1)];
    struct setting s;

    if (wanted == MARK_WRONG) {
        block[draw_from(d, 1, 3)] ^= (uint8_t)draw_from(d, 1, 255);
    } else if (wanted == ENDS_WRONG) {
        block[4] = (uint8_t)draw_spread(d, 0, 255);
    } else if (wanted == FIELD_WRONG) {
        put_field(block, f, draw_chance(d, 50) ? f->low - 1 : f->high + 1);
        if (draw_chance(d, 30))
            block[draw_from(d, 74, 509)] = (uint8_t)draw_from(d, 1, 255);
    } else {
        draw_wide_setting(d, &s);
        lay_setting(&s, block);
    }
    seal_block(block);
    if (wanted == CHECK_WRONG)
        block[draw_from(d, 1, 511)] ^= (uint8_t)draw_from(d, 1, 254);
}

/* A record on a setting that is refused with 2 to 7, and calls after it. */
static void build_refused(struct draw *d, size_t i, struct record *r)
{
    int wanted = CHECK_WRONG + (int)(i % 6);
    struct setting unused;
    struct scene scene;
    uint8_t *block = next_block(r);
    size_t offset;

    draw_scene(d, i, &scene);
    do {
        lay_setting(&scene.setting, block);
        damage_setting(d, wanted, block);
    } while (read_setting(block, BLOCK_BYTES, &unused, &offset) !=
             (enum refusal)wanted);
    add_samples(d, &scene, r, 0);
    add_reset(r);
    add_page(d, r);
    add_view(r);
    add_samples(d, &scene, r, 0);
}

/* ---- Fields in block order ---- */

/* Lists the fields: those of FIELD behind E, and the spare bytes between them. */
static void list_places(void)
{
    const struct field *next = FIELD + 1;
    size_t all = 0, numbers = 0;

    for (size_t at = 5; at < 510; at += place[IN_BLOCK][all++].width) {
        place[IN_BLOCK][all] = (struct field){at, 1, 0, 0};
        if (next < FIELD + FIELDS && next->at == at) {
            place[IN_BLOCK][all] = *next;
            place[IN_VALUES][numbers++] = *next++;
        }
    }
}

/* A field with its range in a block: unused ends hold zeros, and X at curve 0. */
static struct field field_of(const struct field *f, const uint8_t *block)
{
    struct field own = *f;

    if (f->at >= 12 + 12 * (size_t)block[4] && f->at < 60)
        own.low = own.high = 0;
    if (f->at == 74 && block[76] == 0)
        own.low = own.high = 0;
    return own;
}

/* Whether a field of a block is outside its range. */
static int field_wrong(const uint8_t *block, const struct field *f)
{
    struct field own = field_of(f, block);
    uint32_t value = get_field(block, f);

    return value < own.low || value > own.high;
}

/* ---- Answers ---- */

/* Whether an answer is one that a healthy bank may get. */
static int healthy_answer(const struct answer *a, size_t ends)
{
    static const int32_t most[5] = {0, 0, 45, 69, 91};

    for (size_t y = 0; a->filling == 0 && y < SYSTEMS; y++)
        if (a->system[y].start || a->latched[y] ||
            a->system[y].differential > most[ends])
            return 0;
    return 1;
}

/* Counts an answer; of a refusal 12, by the call that it declines. */
static void count_answer(enum refusal refusal, enum asked asked)
{
    if (heard == NULL)
        return;
    told.answers++;
    if (refusal == RECORD_WRONG)
        told.declined[asked]++;
}

/* Counts a measured set. */
static void count_measured(const struct answer *a)
{
    int started = 0, latched = 0;

    if (heard == NULL)
        return;
    for (size_t y = 0; y < SYSTEMS; y++) {
        started |= a->system[y].start;
        latched |= a->latched[y];
    }
    heard->measured++;
    heard->started += (unsigned)started;
    heard->latched += (unsigned)latched;
}

/* Counts a measured set under common blocking. A system with harmonics is blocked,
 * and by document 01 all are then; by card 4 only some may be. A trip is one that
 * the high-set did not make. */
static void count_common(const struct relay *before, const struct answer *a)
{
    const struct setting *s = &before->setting;
    int blocked = 0, trip = 0, at = 0, all = 1;

    if (heard == NULL || !(s->flags & COMMON_BLOCKING))
        return;
    for (size_t y = 0; y < SYSTEMS; y++) {
        const struct measured *m = &a->system[y];

        blocked |= m->blocked;
        all &= m->blocked;
        at |= m->blocked && m->differential == s->pick_up;
        trip |= !m->blocked && a->latched[y] && !before->latches[y] &&
                m->differential <= s->high_set;
    }
    heard->common[0] += (unsigned)(blocked && !all);
    heard->common[1] += (unsigned)(blocked && !all && trip);
    heard->common[2] += (unsigned)at;
    heard->common[3] += (unsigned)all;
}

/* What makes a record inadmissible, by document 01's row for refusal 12 and
 * document 02, cards 2, 6 and 7. */
static enum fault record_fault(const struct relay *relay)
{
    size_t offset;
    enum refusal refusal = setting_refusal(&relay->setting, &offset);
    int fields = refusal != ENDS_WRONG && refusal != FIELD_WRONG;

    if (fields && relay->setting.slope1 > relay->setting.slope2)
        return BREAKS_17;
    if (refusal != ACCEPTED)
        return (enum fault)(BREAKS_4 + refusal - ENDS_WRONG);
    if (relay->fill > WINDOW_SETS)
        return FILL;
    for (size_t i = 0; i < WINDOW_NUMBERS; i++)
        if (relay->values[i] < -MATCHED_LIMIT || relay->values[i] > MATCHED_LIMIT)
            return NUMBER;
    for (size_t y = 0; y < SYSTEMS; y++)
        if (relay->counters[y] > relay->setting.confirm)
            return COUNTER;
    for (size_t z = 0; z < MAX_ENDS; z++)
        if (relay->sums[z] > 1000000000)
            return SUM;
    return relay->flags > 7 || relay->mask > 7 ? PAGE : NONE;
}

/* A mask of the page, 0 where it can't be read. */
static uint8_t page_mask(const struct relay *relay, uint64_t offset)
{
    uint8_t mask = 0;

    relay_read(relay, offset, &mask);
    return mask;
}

/* Counts the flags that an answered sample call raised; and, of starts and of
 * latches, those that go on with no flag, and those beside one that is raised. */
static void count_flags(const struct relay *before, const struct relay *relay,
                        enum refusal refusal)
{
    unsigned raised = relay->flags & ~(unsigned)before->flags & 7;

    if (heard == NULL)
        return;
    paged.raised[raised]++;
    for (unsigned i = 0; refusal == ACCEPTED && i < 2; i++) {
        int on = (page_mask(before, 1 - i) & page_mask(relay, 1 - i)) != 0;

        if (raised >> i & 1)
            paged.beside[i] += (unsigned)on;
        else if (!(relay->flags >> i & 1))
            paged.goes_on[i] += (unsigned)on;
    }
}

/* Counts an accepted reset, 0 by its call and 1 by the page. */
static void count_reset(const struct relay *before, int by_page)
{
    unsigned sum = 0, trip = 0, unused = 0;

    if (heard == NULL)
        return;
    for (size_t z = 0; z < MAX_ENDS; z++) {
        sum |= before->sums[z] != 0;
        trip |= before->trips[z];
        unused |= z >= before->setting.ends && (before->sums[z] || before->trips[z]);
    }
    paged.resets[by_page]++;
    paged.resets[2 + by_page] += page_mask(before, 0) != 0;
    over.resets[by_page][0] += sum;
    over.resets[by_page][1] += trip;
    over.resets[by_page][2] += unused;
}

/* Counts an element that a measured set moves. */
static void count_element(const struct relay *before, const struct relay *relay,
                          size_t z)
{
    const struct setting *s = &relay->setting;
    uint32_t was = before->sums[z], now = relay->sums[z];
    int64_t j = 10 * (int64_t)end_amplitude(relay->values, z) / s->overcurrent;
    size_t kind = j < 11 ? 0 : j == 11 ? 1 : j < 200 ? 2 : j == 200 ? 3 : 4;

    over.tenths[s->curve - 1][kind]++;
    over.trips[z] += relay->trips[z] && !before->trips[z];
    over.cleared[before->trips[z]] += was != 0 && now == 0;
    over.grown[before->trips[z]] += now > was;
    over.limit[was == SUM_LIMIT] += now == SUM_LIMIT;
}

/* Counts what a sample call does to sums and trips. */
static void count_over(const struct relay *before, const struct relay *relay,
                       enum refusal refusal, uint32_t filling)
{
    const struct setting *s = &relay->setting;
    size_t kind;

    if (heard == NULL)
        return;
    if (refusal == RECORD_WRONG) {
        over.declined[0] += record_fault(relay) == SUM;
        return;
    }
    kind = refusal != ACCEPTED ? 0 : filling != 0 ? 1 : s->curve == 0 ? 2 : 3;
    for (size_t z = 0; z < MAX_ENDS; z++) {
        uint32_t sum = before->sums[z];

        if (kind < 3 || z >= s->ends)
            over.stays[kind] += sum != 0 && relay->sums[z] == sum;
        else
            count_element(before, relay, z);
    }
}

/* What a sample call asks: whether 14, or 10 or 11, would decline it too. */
static enum asked asked(const struct relay *relay, const int16_t *list, size_t n)
{
    if (n != SET_NUMBERS)
        return NO_SET;
    for (size_t i = 0; i < SET_NUMBERS; i++)
        if (list[i] > SAMPLE_LIMIT || list[i] < -SAMPLE_LIMIT ||
            (i >= 3u * relay->setting.ends && list[i] != 0))
            return UNSOUND_SET;
    return SOUND_SET;
}

/* Counts a sample call that slopes decline. */
static void count_sloped(const struct relay *relay, const int16_t *list, size_t n)
{
    size_t kind = n != SET_NUMBERS ? 3 : 0;

    if (heard == NULL || record_fault(relay) != BREAKS_17)
        return;
    for (size_t i = 0; kind == 0 && i < SET_NUMBERS; i++)
        kind = list[i] > SAMPLE_LIMIT || list[i] < -SAMPLE_LIMIT;
    for (size_t i = 3u * relay->setting.ends; kind == 0 && i < SET_NUMBERS; i++)
        kind = list[i] != 0 ? 2 : 0;
    slopes.samples[kind]++;
}

/* The sums of all ends, and the line's end. */
static void say_sums(const struct relay *relay)
{
    for (size_t z = 0; z < MAX_ENDS; z++)
        say(" %u", relay->sums[z]);
    say("\n");
}

/* The line of an accepted set. */
static void say_answer(const struct answer *a, const struct relay *relay)
{
    if (a->filling != 0) {
        say("F %u\n", a->filling);
        return;
    }
    say("M");
    for (size_t y = 0; y < SYSTEMS; y++) {
        const struct measured *m = &a->system[y];

        say(" %d %d %d %d %d %d %d", m->differential, m->twice_restraint, m->second,
            m->fifth, m->start, m->blocked, a->latched[y]);
    }
    for (size_t z = 0; z < MAX_ENDS; z++)
        say(" %u", a->tripped[z]);
    say_sums(relay);
}

/* One sample call and its line; whether it is right for a healthy bank, which
 * raises no flag of a start or a trip, and never meets 12. */
static int sample_call(struct relay *relay, const int16_t *list, size_t n)
{
    struct answer a = {0};
    struct relay before = *relay;
    enum refusal refusal = relay_sample(relay, list, n, &a);
    int quiet = (relay->flags & (NEW_START | NEW_TRIP)) == 0;

    count_answer(refusal, asked(relay, list, n));
    count_sloped(relay, list, n);
    count_over(&before, relay, refusal, a.filling);
    count_flags(&before, relay, refusal);
    if (refusal != ACCEPTED) {
        say("refused %d\n", refusal);
        return quiet && refusal != RECORD_WRONG;
    }
    if (a.filling == 0) {
        count_measured(&a);
        count_common(&before, &a);
    }
    say_answer(&a, relay);
    return quiet && healthy_answer(&a, relay->setting.ends);
}

/* The sample calls of a sample block, or its refusal. */
static int sample_calls(struct relay *relay, const uint8_t *block)
{
    int16_t list[BLOCK_NUMBERS];
    size_t count = 0;
    enum refusal refusal = read_samples(block, BLOCK_BYTES, list, &count);
    int right = 1;

    if (refusal != ACCEPTED) {
        say("block %d\n", refusal);
        return 1;
    }
    for (size_t i = 0; i < count; i += SET_NUMBERS)
        right &= sample_call(relay, list + i, SET_NUMBERS);
    return right;
}

/* The sample call of a list block. */
static int list_call(struct relay *relay, const uint8_t *block)
{
    int16_t list[BLOCK_NUMBERS] = {0};
    size_t n = take_list(block, list);

    return sample_call(relay, list, n);
}

/* The short line of a measured set: the trips as one number, and the sums. */
static void say_short(const struct answer *a, const struct relay *relay)
{
    const uint8_t *t = a->tripped;
    int trips = t[0] + 2 * t[1] + 4 * t[2] + 8 * t[3];

    say("H %d", trips);
    say_sums(relay);
    if (heard == NULL)
        return;
    heard->cycled++;
    if (trips != 0 && heard->tripped_at == 0)
        heard->tripped_at = heard->cycled;
}

/* One call of a cycle block and its line. */
static void cycle_call(struct relay *relay, const int16_t *list)
{
    struct answer a = {0};
    struct relay before = *relay;
    enum refusal refusal = relay_sample(relay, list, SET_NUMBERS, &a);

    count_answer(refusal, asked(relay, list, SET_NUMBERS));
    count_over(&before, relay, refusal, a.filling);
    if (heard != NULL)
        over.lines[refusal != ACCEPTED ? 1 : a.filling != 0 ? 0 : 2]++;
    if (refusal != ACCEPTED)
        say("refused %d\n", refusal);
    else if (a.filling != 0)
        say("F %u\n", a.filling);
    else
        say_short(&a, relay);
}

/* The calls of a cycle block. */
static int cycle_calls(struct relay *relay, const uint8_t *block)
{
    uint32_t calls = get_field(block, &CYCLE_CALLS);
    int16_t list[WINDOW_NUMBERS];

    take_numbers(block, WINDOW_NUMBERS, list);
    for (uint32_t k = 0; k < calls; k++)
        cycle_call(relay, list + SET_NUMBERS * (k % WINDOW_SETS));
    return 1;
}

/* The reset call and its line. */
static int reset_call(struct relay *relay)
{
    struct relay before = *relay;
    enum refusal refusal = relay_reset(relay);

    count_answer(refusal, RESET);
    if (refusal != ACCEPTED) {
        over.declined[1] += heard != NULL && record_fault(relay) == SUM;
        slopes.others[0] += heard != NULL && record_fault(relay) == BREAKS_17;
        say("refused %d\n", refusal);
        return 1;
    }
    count_reset(&before, 0);
    say("reset\n");
    return 1;
}

/* All that is wrong with a page call. */
static unsigned page_faults(const struct relay *relay, const struct page_call *call)
{
    uint64_t at = call->offset;
    unsigned faults = record_fault(relay) == NONE ? 0 : INADMISSIBLE;

    if (at >= 64)
        faults |= BEYOND;
    if (call->write && at != 3 && at != 4 && at != 7)
        faults |= FIXED;
    return faults;
}

/* The refusal of a page call by its faults, in document 02's order. */
static enum refusal first_fault(unsigned faults)
{
    if (faults & BEYOND)
        return PAGE_BEYOND;
    if (faults & FIXED)
        return BYTE_FIXED;
    return faults & INADMISSIBLE ? RECORD_WRONG : ACCEPTED;
}

/* An accepted write by byte and value: 3 with 0, 255, others; 4 with three bits,
 * more; 7 with 0, 1, 2, 255, others. */
static size_t written_kind(const struct page_call *call)
{
    uint8_t value = call->value;

    if (call->offset == 3)
        return value == 0 ? 0 : value == 255 ? 1 : 2;
    if (call->offset == 4)
        return value <= 7 ? 3 : 4;
    return value <= 2 ? 5u + value : value == 255 ? 8 : 9;
}

/* Counts byte 5 as it is seen: rising from 0 to 1, and falling to 0 again. */
static void count_byte5(uint8_t byte)
{
    if (byte == 1 && heard->seen == 1) {
        heard->seen = 2;
        paged.turns[0]++;
    } else if (byte == 0) {
        paged.turns[1] += heard->seen == 2;
        heard->seen = 1;
    }
}

/* Counts an accepted page call. */
static void count_accepted(const struct page_call *call, uint8_t byte,
                           const struct relay *before, const struct relay *relay)
{
    if (!call->write) {
        paged.read[call->offset]++;
        if (call->offset == 5)
            count_byte5(byte);
        return;
    }
    paged.written[written_kind(call)]++;
    if (call->offset == 3)
        paged.cleared[before->flags & ~(unsigned)relay->flags]++;
    if (call->offset == 7 && call->value == 1)
        count_reset(before, 1);
}

/* Counts a page call on a record whose slopes fall. */
static void count_page_sloped(const struct relay *relay, const struct page_call *call,
                              enum refusal refusal)
{
    if (record_fault(relay) != BREAKS_17)
        return;
    slopes.others[1 + call->write] += refusal == RECORD_WRONG;
    slopes.pages[call->write] += refusal == PAGE_BEYOND;
    slopes.pages[2] += refusal == BYTE_FIXED;
}

/* One read or write and its line. */
static void register_call(struct relay *relay, const struct page_call *call)
{
    struct relay before = *relay;
    unsigned faults = page_faults(relay, call);
    uint8_t byte = 0;
    enum refusal refusal =
        call->write ? relay_write(relay, call->offset, call->value)
                    : relay_read(relay, call->offset, &byte);

    if (refusal != ACCEPTED)
        say("refused %d\n", refusal);
    else if (call->write)
        say("written\n");
    else
        say("byte %u\n", byte);
    if (heard == NULL)
        return;
    paged.calls[call->write][faults]++;
    paged.wrong += refusal != first_fault(faults);
    over.declined[2] += refusal == RECORD_WRONG && record_fault(relay) == SUM;
    count_page_sloped(relay, call, refusal);
    if (refusal == ACCEPTED)
        count_accepted(call, byte, &before, relay);
}

/* The calls of a page block. */
static int page_calls(struct relay *relay, const uint8_t *block)
{
    for (size_t i = 0; i < block[1]; i++) {
        struct page_call call = take_page_call(block + 4 + PAGE_CALL_BYTES * i);

        register_call(relay, &call);
    }
    if (heard != NULL)
        heard->paged++;
    return 1;
}

/* Counts a view. */
static void count_view(const struct relay *relay)
{
    size_t kind = page_mask(relay, 0) != 0 ? 2 : 1;

    if (heard == NULL)
        return;
    if (record_fault(relay) != NONE)
        kind = 3;
    else if (relay->fill == WINDOW_SETS)
        kind = 0;
    paged.views[kind]++;
    heard->paged++;
}

/* The reads of a view block, in one line. */
static int view_page(const struct relay *relay)
{
    say("page");
    for (uint64_t i = 0; i < PAGE_BYTES; i++) {
        uint8_t byte = 0;
        enum refusal refusal = relay_read(relay, i, &byte);

        if (refusal != ACCEPTED)
            say(" refused %d", refusal);
        else
            say(" %u", byte);
        if (heard != NULL && refusal == ACCEPTED && i == 5)
            count_byte5(byte);
    }
    say("\n");
    count_view(relay);
    return 1;
}

/* The whole record in a line: setting fields, fill, counter and latch of each
 * system, flags and interrupt mask, sum and trip of each end, matched numbers. */
static int print_record(const struct relay *relay)
{
    say("record");
    for (size_t i = 0; i < FIELDS; i++) {
        struct part part = {SETTING_PART, (uint8_t)FIELD[i].at};

        say(" %u", part_value(relay, part));
    }
    say(" %u", relay->fill);
    for (size_t y = 0; y < SYSTEMS; y++)
        say(" %u %u", relay->counters[y], relay->latches[y]);
    say(" %u %u", relay->flags, relay->mask);
    for (size_t z = 0; z < MAX_ENDS; z++)
        say(" %u %u", relay->sums[z], relay->trips[z]);
    for (size_t i = 0; i < WINDOW_NUMBERS; i++)
        say(" %d", relay->values[i]);
    say("\n");
    return 1;
}

/* The only byte of a field that isn't zero, or 0 where there are more. */
static size_t lone_byte(const uint8_t *block, const struct field *f)
{
    size_t byte = 0;

    for (size_t at = f->at; at < f->at + f->width; at++)
        if (block[at] != 0) {
            if (byte != 0)
                return 0;
            byte = at;
        }
    return byte;
}

/* The refusal of values if only what the factors are made of could be wrong. */
static enum refusal factor_fault(const uint8_t *block)
{
    struct setting s = plain_setting, values;
    size_t offset;

    take_setting(block, &values);
    s.ends = values.ends;
    s.power = values.power;
    for (size_t z = 0; z < s.ends; z++) {
        s.end[z].voltage = values.end[z].voltage;
        s.end[z].current = values.end[z].current;
    }
    return setting_refusal(&s, &offset);
}

/* Counts a setting with n fields wrong, number k the first. */
static void count_wrong(enum judged judged, const uint8_t *block, size_t n, size_t k)
{
    size_t ends = block[4], byte = lone_byte(block, &place[judged][k]);
    size_t at = place[judged][k].at;
    enum refusal factors = factor_fault(block);

    faulty[judged].at_once[n <= MOST_FAULTS ? n : 0]++;
    faulty[judged].first[ends - 2][k]++;
    if (byte >= 12 + 12 * ends && byte < 60)
        faulty[judged].lone[ends - 2][byte - 36]++;
    if (at == 74 || at == 76)
        faulty[judged].over[at == 76 ? 2 : block[76] != 0][ends - 2]++;
    if (factors == FACTOR_TOO_HIGH || factors == FACTOR_TOO_LOW)
        faulty[judged].factors[factors - FACTOR_TOO_HIGH]++;
}

/* The sign of m2 less m1 in a block. */
static int rise(const uint8_t *block)
{
    struct setting s;

    take_setting(block, &s);
    return (s.slope2 > s.slope1) - (s.slope2 < s.slope1);
}

/* What follows 5 for a setting: 6 and 7 and 17 in a block, 17 and 6 and 7 in
 * values. */
static enum refusal later_fault(enum judged judged, const uint8_t *block)
{
    enum refusal factors = factor_fault(block);

    if (rise(block) >= 0 || (judged == IN_BLOCK && factors != ACCEPTED))
        return factors;
    return SLOPES_FALL;
}

/* Counts a judged setting by its wrong fields; whether they ask for this answer. */
static int faults_answered(enum judged judged, const uint8_t *block,
                           enum refusal refusal, size_t offset)
{
    size_t first = 0, n = 0;
    int last = 0;

    for (size_t k = 0; k < places[judged]; k++) {
        int wrong = field_wrong(block, &place[judged][k]);

        faulty[judged].pair[block[4] - 2][k] += (unsigned)(wrong && last);
        if (wrong && n++ == 0)
            first = k;
        last = wrong;
    }
    if (n == 0)
        return refusal == later_fault(judged, block) && offset == 0;
    count_wrong(judged, block, n, first);
    return refusal == FIELD_WRONG && offset == place[judged][first].at;
}

/* Counts a judged setting; up to refusal 4 its fields don't matter. */
static void count_judged(enum judged judged, const uint8_t *block,
                         enum refusal refusal, size_t offset)
{
    faulty[judged].refused[refusal]++;
    slopes.judged[judged][refusal] += rise(block) < 0;
    slopes.same[judged] += refusal == ACCEPTED && rise(block) == 0;
    if (refusal == ACCEPTED || refusal >= FIELD_WRONG)
        faulty[judged].wrong += !faults_answered(judged, block, refusal, offset);
    else
        faulty[judged].wrong += offset != 0;
}

/* The line of a judged setting. */
static void say_judged(const char *what, enum refusal refusal, size_t offset)
{
    say("%s %d", what, refusal);
    if (refusal == FIELD_WRONG)
        say(" %zu", offset);
    say("\n");
}

/* Starts a relay on a setting block; whether there is one now. */
static int setting_call(struct relay *relay, const uint8_t *block, size_t length)
{
    struct setting s;
    size_t offset;
    enum refusal refusal = read_setting(block, length, &s, &offset);

    if (refusal == ACCEPTED)
        refusal = relay_start(&s, relay, &offset);
    say_judged("setting", refusal, offset);
    if (heard != NULL)
        count_judged(IN_BLOCK, block, refusal, offset);
    return refusal == ACCEPTED;
}

/* Counts a begin block by its start. The writer answers like it, but that slopes may
 * fall, and that a buffer can be too short. */
static void count_begin(const struct setting *s, const enum refusal refusal[3],
                        const size_t offset[3])
{
    enum refusal write = refusal[0], later;
    uint8_t block[BLOCK_BYTES];

    if (heard == NULL)
        return;
    lay_setting(s, block);
    count_judged(IN_VALUES, block, refusal[0], offset[0]);
    if (refusal[0] == SLOPES_FALL) {
        write = factor_fault(block);
        slopes.written[write]++;
    }
    later = write == ACCEPTED ? BUFFER_TOO_SHORT : write;
    faulty[IN_VALUES].wrong += refusal[1] != write || refusal[2] != later ||
                               offset[1] != offset[0] || offset[2] != offset[0];
}

/* The start and both writes of a begin block, and their lines. */
static int begin_call(const struct relay *relay)
{
    const struct setting *s = &relay->setting;
    uint8_t buffer[600];
    enum refusal refusal[3];
    size_t offset[3];
    struct relay fresh;

    refusal[0] = relay_start(s, &fresh, &offset[0]);
    refusal[1] = write_setting(s, buffer, sizeof buffer, &offset[1]);
    refusal[2] = write_setting(s, buffer, BLOCK_BYTES - 1, &offset[2]);
    say_judged("start", refusal[0], offset[0]);
    say_judged("write", refusal[1], offset[1]);
    say_judged("short", refusal[2], offset[2]);
    count_begin(s, refusal, offset);
    return 1;
}

/* A block after the setting, by its kind. */
static int call_block(struct relay *relay, const uint8_t *block)
{
    switch (block[0]) {
    case SAMPLE_KIND: return sample_calls(relay, block);
    case LIST_KIND: return list_call(relay, block);
    case CYCLE_KIND: return cycle_calls(relay, block);
    case CHANGE_KIND: change_part(relay, take_change(block)); return 1;
    case PRINT_KIND: return print_record(relay);
    case PAGE_KIND: return page_calls(relay, block);
    case VIEW_KIND: return view_page(relay);
    case BEGIN_KIND: return begin_call(relay);
    default: return reset_call(relay);
    }
}

/* ---- Changes between calls ---- */

/* The relay after the blocks that came since it was followed last. */
static void follow(struct record *r, struct relay *relay)
{
    for (; r->followed < r->blocks; r->followed++)
        call_block(relay, r->block[r->followed]);
}

/* Changes a part. */
static void add_change(struct record *r, struct relay *relay, struct change change)
{
    lay_change(change, next_block(r));
    follow(r, relay);
}

/* Counts flags or interrupt mask changed to 7, 8 or 255. */
static void count_page_change(struct change change)
{
    static const uint8_t value[3] = {7, 8, 255};

    for (size_t i = 0; change.part.kind == PAGE_PART && i < 3; i++)
        paged.changed[3 * change.part.which + i] += change.value == value[i];
}

/* Counts a change of one slope: they fall, are the same, or rise. */
static void count_slope_change(const struct relay *relay, struct change change,
                               enum fault fault)
{
    const struct setting *s = &relay->setting;
    uint8_t at = change.part.which;

    if (change.part.kind != SETTING_PART || (at != 64 && at != 66))
        return;
    slopes.changes[0] += fault == BREAKS_17;
    if (fault == NONE)
        slopes.changes[s->slope1 == s->slope2 ? 1 : 2]++;
}

/* Some calls and the record printed: all kinds of calls where they are to be
 * refused. */
static void add_some_calls(struct draw *d, struct scene *scene, struct record *r,
                           int refused)
{
    if (refused || draw_chance(d, 50))
        add_page(d, r);
    add_sets(d, scene, r, (size_t)draw_from(d, 1, 2), draw_chance(d, 40));
    if (refused || draw_chance(d, 20))
        add_list(d, scene, r);
    if (refused || draw_chance(d, 20))
        add_reset(r);
    maybe_page(d, r);
    next_block(r)[0] = PRINT_KIND;
}

/* A change, calls on the changed record, and mostly the value of before again:
 * where the calls are refused, the record is then the one of before. */
static void add_changed_calls(struct draw *d, struct scene *scene, struct record *r,
                              struct relay *relay, struct change change)
{
    struct change back = {change.part, part_value(relay, change.part)};
    struct relay before = *relay;
    enum fault fault;

    add_change(r, relay, change);
    fault = record_fault(relay);
    told.changes[change.part.kind][fault]++;
    count_page_change(change);
    count_slope_change(relay, change, fault);
    add_some_calls(d, scene, r, fault != NONE);
    follow(r, relay);
    if (fault != NONE || draw_chance(d, 50))
        add_change(r, relay, back);
    if (fault != NONE && !record_same(relay, &before))
        r->kept = 0;
    add_sets(d, scene, r, (size_t)draw_from(d, 1, 3), 0);
    follow(r, relay);
}

/* Record number i of changes: the next ten of all, kinds mixed. */
static void build_changes(struct draw *d, size_t i, struct record *r)
{
    struct scene scene;
    struct relay relay;
    size_t offset;

    draw_scene(d, i, &scene);
    lay_setting(&scene.setting, next_block(r));
    relay_start(&scene.setting, &relay, &offset);
    r->followed = 1;
    add_samples(d, &scene, r, 0);
    follow(r, &relay);
    for (size_t k = ROUND * i; k < ROUND * (i + 1); k++)
        add_changed_calls(d, &scene, r, &relay,
                          edge_change(d, &relay, 97 * k % CHANGES));
}

/* A latched relay, its fill put below a full window: viewed, and once more after
 * a set. */
static void add_unfilled(struct draw *d, struct scene *scene, struct record *r,
                         struct relay *relay, uint32_t fill)
{
    struct change change = {{FILL_PART, 0}, fill};

    add_sets(d, scene, r, WINDOW_SETS, 0);
    follow(r, relay);
    add_change(r, relay, change);
    told.changes[FILL_PART][record_fault(relay)]++;
    add_view(r);
    add_sets(d, scene, r, 1, 0);
    add_view(r);
    add_page(d, r);
    next_block(r)[0] = PRINT_KIND;
    follow(r, relay);
}

/* A record on document 01's plain setting: factors just at their limits and
 * just past them, and fills below a full window. */
static void build_limits(struct draw *d, struct record *r)
{
    static const uint32_t current[4] = {16000, 16001, 500, 499};
    struct scene scene = {.setting = plain_setting, .kind = NOISE};
    struct relay relay;
    size_t offset;

    lay_setting(&scene.setting, next_block(r));
    relay_start(&scene.setting, &relay, &offset);
    r->followed = 1;
    for (size_t k = 0; k < 8; k++) {
        struct change change = {{SETTING_PART, k < 4 ? 16 : 28}, current[k % 4]};
        struct change back = {change.part, 1000};

        add_changed_calls(d, &scene, r, &relay, change);
        add_change(r, &relay, back);
    }
    for (uint32_t fill = 0; fill < WINDOW_SETS; fill++)
        add_unfilled(d, &scene, r, &relay, fill);
}

/* ---- Overcurrent ---- */

/* The curve off for some sets, by changes of X and curve, and on again. */
static void add_off(struct draw *d, struct scene *scene, struct record *r,
                    struct relay *relay)
{
    static const struct part part[2] = {{SETTING_PART, 74}, {SETTING_PART, 76}};
    struct setting before = relay->setting;

    for (size_t i = 0; i < 2; i++)
        add_change(r, relay, (struct change){part[i], 0});
    add_sets(d, scene, r, (size_t)draw_from(d, 1, 4), 0);
    next_block(r)[0] = PRINT_KIND;
    add_change(r, relay, (struct change){part[0], before.overcurrent});
    add_change(r, relay, (struct change){part[1], before.curve});
}

/* A cycle block of the scene; in one of three a set is declined. */
static void add_scene_cycle(struct draw *d, struct scene *scene, struct record *r)
{
    int16_t list[WINDOW_NUMBERS];

    for (size_t k = 0; k < WINDOW_SETS; k++)
        scene_set(d, scene, list + SET_NUMBERS * k);
    if (draw_chance(d, 33))
        spoil_set(d, &scene->setting, list + SET_NUMBERS * draw_from(d, 0, 11));
    add_cycle(r, list, (size_t)draw_from(d, 0, 40));
}

/* Any calls on a relay with overcurrent: sets, resets by call and by page, and sets
 * with the curve off. */
static void add_over_calls(struct draw *d, struct scene *scene, struct record *r,
                           struct relay *relay)
{
    static const struct page_call reset = {1, 1, 7};
    int64_t kind = draw_from(d, 0, 99);

    if (kind < 45)
        add_sets(d, scene, r, BLOCK_SETS, kind < 25);
    else if (kind < 55)
        add_reset(r);
    else if (kind < 65)
        add_page_calls(r, &reset, 1);
    else if (kind < 80)
        add_scene_cycle(d, scene, r);
    else
        add_off(d, scene, r, relay);
    follow(r, relay);
}

/* Record number i of overcurrent: 2, 3 and 4 ends and both curves in turn, one of
 * ten with the curve off; ten changes and calls between them. */
static void build_over(struct draw *d, size_t i, struct record *r)
{
    struct scene scene = {.kind = LOADS};
    uint8_t curve = (uint8_t)(i % 10 == 9 ? 0 : 1 + i / 3 % CURVES);
    struct relay relay;
    size_t offset;

    draw_setting(d, (uint8_t)(2 + i % 3), &scene.setting);
    if (i % 2 == 1)
        draw_eighths(d, &scene.setting);
    draw_overcurrent(d, curve, &scene.setting);
    lay_setting(&scene.setting, next_block(r));
    relay_start(&scene.setting, &relay, &offset);
    r->followed = 1;
    add_sets(d, &scene, r, (size_t)draw_from(d, 6, BLOCK_SETS), 1);
    follow(r, &relay);
    for (size_t k = ROUND * i; k < ROUND * (i + 1); k++) {
        size_t n = (37 * k + 11 * (i / 6)) % OVER_CHANGES;

        add_changed_calls(d, &scene, r, &relay, over_change(d, n));
        add_over_calls(d, &scene, r, &relay);
    }
}

/* Run number i: in turn ends, X, and the end that carries a steady j. */
static unsigned run_setting(size_t i, struct setting *s)
{
    static const uint16_t steady[STEADY] = {
        11,  12,  13,  14,  15,  16,  17,  18,  19,  20,  22,  25,  28,
        30,  33,  37,  40,  45,  50,  57,  64,  70,  75,  80,  90,  99,
        100, 110, 120, 130, 150, 170, 180, 190, 199, 200, 201, 400};
    static const uint16_t x[4] = {200, 263, 777, 1500};

    *s = plain_setting;
    s->ends = (uint8_t)(2 + i % 3);
    s->curve = (uint8_t)(1 + i / STEADY);
    s->overcurrent = steady[i % STEADY] > 200 ? 200 : x[i % 4];
    for (size_t z = 2; z < s->ends; z++)
        s->end[z] = s->end[0];
    return steady[i % STEADY];
}

/* A cycle of a run: a current halfway between j and the next on an end's phase, and
 * on those of other ends below 11. */
static void run_cycle(const struct setting *s, size_t end, size_t phase, unsigned j,
                      int16_t list[WINDOW_NUMBERS])
{
    struct wave wave = {0};

    for (size_t z = 0; z < s->ends; z++)
        wave.cosine[0][3 * z + phase] = (int32_t)(5 * z) * s->overcurrent / 20;
    wave.cosine[0][3 * end + phase] = (int32_t)(2 * j + 1) * s->overcurrent / 20;
    for (size_t k = 0; k < WINDOW_SETS; k++)
        wave_set(&wave, s, k, list + SET_NUMBERS * k);
}

/* Run number i, or a long one: at j 11 of either curve from a fresh relay. Others at
 * low j start from a sum that leaves some 250 sets. It trips at the least number of
 * sets whose growth reaches the limit; then come twelve, a reset, and some more. */
static void build_run(struct draw *d, size_t i, struct record *r)
{
    int16_t list[WINDOW_NUMBERS];
    struct setting s;
    size_t n = i < CURVES * STEADY ? i : STEADY * (i % CURVES);
    unsigned j = run_setting(n, &s);
    struct change from = {{SUM_PART, (uint8_t)(n / 3 % s.ends)}, 0};
    uint32_t entry = curve_entry(s.curve, j < 200 ? j : 200);
    uint32_t growth = SUM_LIMIT / entry;

    lay_setting(&s, next_block(r));
    if (i < CURVES * STEADY && entry > 450) {
        from.value = SUM_LIMIT - (uint32_t)draw_from(d, 240 * growth, 260 * growth);
        lay_change(from, next_block(r));
    }
    r->trips_at = (SUM_LIMIT - from.value + growth - 1) / growth;
    run_cycle(&s, from.part.which, n / 2 % SYSTEMS, j, list);
    add_cycle(r, list, WINDOW_SETS - 1 + r->trips_at + 12);
    next_block(r)[0] = PRINT_KIND;
    add_reset(r);
    add_cycle(r, list, 20);
    next_block(r)[0] = PRINT_KIND;
}

/* ---- Faulty settings ---- */

/* A value with one byte other than that of a sound one, and outside the range. */
static uint32_t one_byte_off(struct draw *d, const struct field *f, uint32_t sound)
{
    uint32_t value;
    size_t byte;

    do {
        byte = (size_t)draw_from(d, 0, (int64_t)f->width - 1);
        value = sound ^ (uint32_t)draw_from(d, 1, 255) << (8 * byte);
    } while (value >= f->low && value <= f->high);
    made.byte[byte]++;
    return value;
}

/* Makes a field wrong: one that must be 0 by one of its bytes, others by one below
 * the range (if 0 is outside it), one above, all ones, or one byte. */
static void spoil_field(struct draw *d, const struct field *f, unsigned how,
                        uint8_t *block)
{
    struct field own = field_of(f, block);
    uint32_t value = get_field(block, f);

    if (own.high == 0) {
        value = (uint32_t)draw_spread(d, 1, 255) << (8 * (how % f->width));
        how = 4;
    } else if (how == 0 && own.low > 0) {
        value = own.low - 1;
    } else if (how <= 1) {
        how = 1;
        value = own.high + 1;
    } else {
        value = how == 2 ? UINT32_MAX : one_byte_off(d, &own, value);
    }
    made.how[how]++;
    put_field(block, f, value);
}

/* Whether i is among n numbers. */
static int among(const size_t *list, size_t n, size_t i)
{
    while (n > 0 && list[n - 1] != i)
        n--;
    return n > 0;
}

/* So many different fields: one of two lies near to the one before it, and most
 * of the others in the first 77 bytes. */
static void draw_places(struct draw *d, enum judged judged, size_t n, size_t *list)
{
    int64_t all = (int64_t)places[judged];
    int64_t near = judged == IN_BLOCK ? NEAR_PLACES : NUMBERS;

    for (size_t k = 0; k < n;) {
        int64_t i = draw_from(d, 0, (draw_chance(d, 70) ? near : all) - 1);

        if (k > 0 && draw_chance(d, 50))
            i = (int64_t)list[k - 1] + draw_from(d, -3, 3);
        if (i >= 0 && i < all && !among(list, k, (size_t)i))
            list[k++] = (size_t)i;
    }
}

/* Makes two to six fields of a block wrong. */
static void spoil_some(struct draw *d, uint8_t *block)
{
    size_t list[MOST_FAULTS], n = (size_t)draw_from(d, 2, MOST_FAULTS);

    draw_places(d, IN_BLOCK, n, list);
    for (size_t k = 0; k < n; k++) {
        unsigned how = (unsigned)draw_from(d, 0, 3);

        spoil_field(d, &place[IN_BLOCK][list[k]], how, block);
    }
    seal_block(block);
}

/* Field number i of a block and its neighbour, if there is one: how, below 16, is
 * the way of either; from 16 on, of the field alone. */
static void spoil_pair(struct draw *d, size_t i, unsigned how, uint8_t *block)
{
    spoil_field(d, &place[IN_BLOCK][i], how % 4, block);
    if (how < 16 && i + 1 < PLACES)
        spoil_field(d, &place[IN_BLOCK][i + 1], how / 4, block);
    seal_block(block);
}

/* A setting whose fields are in order, and its factors not. */
static void draw_refused(struct draw *d, enum refusal wanted, struct setting *s)
{
    size_t offset;

    do {
        draw_wide_setting(d, s);
    } while (setting_refusal(s, &offset) != wanted);
}

/* Wrong fields and beside them, in turn, a wrong check, mark or number of ends,
 * or factors that would be refused. */
static void spoil_beside(struct draw *d, size_t n, uint8_t *block)
{
    static const uint8_t ends[4] = {0, 1, 5, 255};
    enum refusal wanted = (enum refusal)(CHECK_WRONG + n % 5), refusal;
    struct setting s;
    size_t offset;

    if (n % 5 >= 3) {
        wanted = FIELD_WRONG;
        draw_refused(d, n % 5 == 3 ? FACTOR_TOO_HIGH : FACTOR_TOO_LOW, &s);
        lay_setting(&s, block);
    }
    spoil_some(d, block);
    if (wanted == MARK_WRONG)
        block[draw_from(d, 1, 3)] ^= (uint8_t)draw_from(d, 1, 255);
    if (wanted == ENDS_WRONG)
        block[4] = ends[n / 5 % 4];
    seal_block(block);
    if (wanted == CHECK_WRONG)
        block[draw_from(d, 1, 511)] ^= (uint8_t)draw_from(d, 1, 254);
    refusal = read_setting(block, BLOCK_BYTES, &s, &offset);
    faulty[IN_BLOCK].wrong += refusal != wanted;
    if (wanted != FIELD_WRONG)
        made.beside[wanted - CHECK_WRONG]++;
}

/* Faulty setting block number n, from sound ones of 2, 3 and 4 ends: each field of
 * the first 77 bytes with its neighbour in every way, and alone; each later field
 * with its neighbour; any fields; and these beside other faults. */
static void lay_faulty(struct draw *d, size_t n, const struct setting sound[3],
                       uint8_t *block)
{
    const size_t near = 3 * NEAR_PLACES * 20;
    const size_t far = near + 3 * (PLACES - NEAR_PLACES), any = far + 3000;

    lay_setting(&sound[n % 3], block);
    if (n < near)
        spoil_pair(d, n / 3 % NEAR_PLACES, (unsigned)(n / 3 / NEAR_PLACES), block);
    else if (n < far)
        spoil_pair(d, NEAR_PLACES + (n - near) / 3, (unsigned)draw_from(d, 0, 15),
                   block);
    else if (n < any)
        spoil_some(d, block);
    else
        spoil_beside(d, n / 3, block);
}

/* A begin block. */
static void add_begin(struct record *r)
{
    next_block(r)[0] = BEGIN_KIND;
}

/* A sound setting block and calls on its relay. */
static void add_sound(struct draw *d, size_t i, struct record *r)
{
    struct scene scene;

    draw_scene(d, i, &scene);
    lay_setting(&scene.setting, next_block(r));
    add_samples(d, &scene, r, 1);
    add_begin(r);
    add_view(r);
    add_reset(r);
}

/* Record number i of faulty setting blocks, all curves in turn, and in one of four
 * with slopes that fall: now and then calls that are passed over, and after each half
 * a sound block. */
static void build_faulty(struct draw *d, size_t i, struct record *r)
{
    struct setting sound[3];

    for (uint8_t e = 0; e < 3; e++) {
        draw_setting(d, 2 + e, &sound[e]);
        draw_overcurrent(d, (uint8_t)(i % 3), &sound[e]);
        if (i % 4 == 3)
            draw_falling(d, &sound[e]);
    }
    for (size_t k = 0; k < FAULTY_BLOCKS; k++) {
        lay_faulty(d, FAULTY_BLOCKS * i + k, sound, next_block(r));
        if (k % 40 == 20)
            add_begin(r);
        if (k % 40 == 39)
            add_reset(r);
        if (k % 100 == 99)
            add_sound(d, i, r);
    }
}

/* A setting from which power 1 leads to refusal 6, and power 50,000 to 7. */
static void draw_movable(struct draw *d, uint8_t ends, struct setting *s)
{
    struct setting low, high;
    size_t offset;

    do {
        draw_setting(d, ends, s);
        low = high = *s;
        low.power = 1;
        high.power = 50000;
    } while (setting_refusal(&low, &offset) != FACTOR_TOO_HIGH ||
             setting_refusal(&high, &offset) != FACTOR_TOO_LOW);
}

/* A change that makes number k of the values' fields wrong. */
static struct change wrong_value(struct draw *d, const struct relay *relay, size_t k,
                                 unsigned how)
{
    const struct field *f = &place[IN_VALUES][k];
    uint8_t block[BLOCK_BYTES];

    lay_setting(&relay->setting, block);
    spoil_field(d, f, how, block);
    return (struct change){{SETTING_PART, (uint8_t)f->at}, get_field(block, f)};
}

/* Values changed, a begin block, the values of before, and one more. */
static void add_changed_values(struct record *r, struct relay *relay,
                               const struct change *change, size_t n)
{
    struct relay before = *relay;

    for (size_t k = 0; k < n; k++)
        add_change(r, relay, change[k]);
    add_begin(r);
    for (size_t k = 0; k < n; k++) {
        struct part part = change[k].part;

        add_change(r, relay, (struct change){part, part_value(&before, part)});
    }
    add_begin(r);
    follow(r, relay);
    if (!record_same(relay, &before))
        r->kept = 0;
}

/* Each field of the values wrong with its neighbour, the last alone, and X alone, in
 * one of four ways. */
static void add_pairs(struct draw *d, unsigned how, struct record *r,
                      struct relay *relay)
{
    struct change x;

    for (size_t k = 0; k < NUMBERS; k++) {
        struct change change[2] = {wrong_value(d, relay, k, how)};
        size_t n = k + 1 < NUMBERS ? 2 : 1;

        if (n == 2)
            change[1] = wrong_value(d, relay, k + 1, (unsigned)draw_from(d, 0, 3));
        add_changed_values(r, relay, change, n);
    }
    x = wrong_value(d, relay, NUMBERS - 2, how);
    add_changed_values(r, relay, &x, 1);
}

/* Wrong values, none or two to six; beside them, in turn, nothing, E wrong, E
 * another, or the power such that 6 or 7 would come; and in three of ten slopes that
 * fall. */
static void add_unsound(struct draw *d, size_t turn, struct record *r,
                        struct relay *relay)
{
    static const uint8_t ends[4] = {0, 1, 5, 255};
    uint32_t wrong_ends = ends[draw_from(d, 0, 3)];
    uint32_t other_ends = 2 + (relay->setting.ends - 1u) % 3;
    const struct change beside[4] = {{{SETTING_PART, 4}, wrong_ends},
                                     {{SETTING_PART, 4}, other_ends},
                                     {{SETTING_PART, 8}, 1},
                                     {{SETTING_PART, 8}, 50000}};
    struct change change[MOST_FAULTS + 2];
    size_t list[MOST_FAULTS], n = 0;
    size_t wrong = draw_chance(d, 15) ? 0 : (size_t)draw_from(d, 2, MOST_FAULTS);

    if (turn % 6 >= 2)
        change[n++] = beside[turn % 6 - 2];
    if (draw_chance(d, 30))
        change[n++] = slope_change(&relay->setting,
                                   (size_t)draw_from(d, 0, FALLING_CHANGES - 1));
    draw_places(d, IN_VALUES, wrong, list);
    for (size_t k = 0; k < wrong; k++)
        change[n++] = wrong_value(d, relay, list[k], (unsigned)draw_from(d, 0, 3));
    made.beside[3] += turn % 6 == 2 && wrong != 0;
    add_changed_values(r, relay, change, n);
}

/* Record number i of wrong values on a relay of 2, 3 or 4 ends and each curve: first
 * those of neighbours. */
static void build_values(struct draw *d, size_t i, struct record *r)
{
    struct scene scene = {.kind = NOISE};
    struct relay relay;
    size_t offset;

    draw_movable(d, (uint8_t)(2 + i % 3), &scene.setting);
    draw_overcurrent(d, (uint8_t)(i / 3 % 3), &scene.setting);
    lay_setting(&scene.setting, next_block(r));
    relay_start(&scene.setting, &relay, &offset);
    r->followed = 1;
    add_sets(d, &scene, r, 3, 0);
    follow(r, &relay);
    if (i < PAIRED)
        add_pairs(d, (unsigned)(i / 3), r, &relay);
    else
        for (size_t turn = 0; turn < UNSOUND_CASES; turn++)
            add_unsound(d, turn, r, &relay);
    next_block(r)[0] = PRINT_KIND;
    add_sets(d, &scene, r, 3, 0);
}

/* ---- Slopes ---- */

#define SLOPE_PLACE 21      /* m1 among the fields of values, m2 the next */
#define SLOPE_IN_BLOCK 30   /* m1 among those of a block */
#define BESIDE_VALUES 7     /* faults that values have beside slopes */
#define BESIDE_BLOCK 10     /* those that a block has */

/* Slopes with room to both sides, so that each of their changes is in range. */
static void draw_room(struct draw *d, struct setting *s)
{
    s->slope1 = (uint16_t)draw_from(d, 13, 140);
    s->slope2 = (uint16_t)draw_from(d, s->slope1 + 1, 149);
}

/* A setting of 2, 3 or 4 ends and each curve, whose factors and slopes can be moved. */
static void draw_sloped(struct draw *d, size_t i, struct setting *s)
{
    draw_movable(d, (uint8_t)(2 + i % 3), s);
    draw_overcurrent(d, (uint8_t)((i + i / 3) % 3), s);
    draw_room(d, s);
}

/* A relay on the scene's setting, and some sets. */
static void start_sloped(struct draw *d, struct scene *scene, struct record *r,
                         struct relay *relay)
{
    size_t offset;

    lay_setting(&scene->setting, next_block(r));
    relay_start(&scene->setting, relay, &offset);
    r->followed = 1;
    add_samples(d, scene, r, 0);
    follow(r, relay);
}

/* Fault number kind of values: E, a field before the slopes, m1 above its range, m2
 * below its own, a field behind them, or the power such that 6 or 7 would come. */
static struct change beside_slopes(struct draw *d, const struct relay *relay,
                                   size_t kind)
{
    static const uint8_t ends[4] = {0, 1, 5, 255};
    unsigned how = (unsigned)draw_from(d, 0, 3);
    size_t before = (size_t)draw_from(d, 0, SLOPE_PLACE - 1);
    size_t behind = (size_t)draw_from(d, SLOPE_PLACE + 2, NUMBERS - 1);

    switch (kind) {
    case 0: return (struct change){{SETTING_PART, 4}, ends[how]};
    case 1: return wrong_value(d, relay, before, how);
    case 2: return (struct change){{SETTING_PART, 64}, 151 + 1000 * how};
    case 3: return (struct change){{SETTING_PART, 66}, 9 - 3 * how};
    case 4: return wrong_value(d, relay, behind, how);
    case 5: return (struct change){{SETTING_PART, 8}, 1};
    default: return (struct change){{SETTING_PART, 8}, 50000};
    }
}

/* Record number i of slopes in values: a change of one alone, with each fault, and
 * with each two. */
static void build_sloped_values(struct draw *d, size_t i, struct record *r)
{
    struct scene scene = {.kind = NOISE};
    struct relay relay;

    draw_sloped(d, i, &scene.setting);
    start_sloped(d, &scene, r, &relay);
    for (size_t a = 0; a <= BESIDE_VALUES; a++)
        for (size_t b = a + (a < BESIDE_VALUES); b <= BESIDE_VALUES; b++) {
            struct change change[3] = {slope_change(&relay.setting, i / 3)};
            size_t n = 1;

            if (a < BESIDE_VALUES)
                change[n++] = beside_slopes(d, &relay, a);
            if (b < BESIDE_VALUES)
                change[n++] = beside_slopes(d, &relay, b);
            add_changed_values(r, &relay, change, n);
        }
    next_block(r)[0] = PRINT_KIND;
    add_sets(d, &scene, r, 3, 0);
}

/* Makes fault number kind in a block: the mark, E, a field or a spare byte before the
 * slopes, m1 above its range, m2 below its own, a field behind them, a spare byte, or
 * the power such that 6 or 7 would come. Number 0, the check, comes later. */
static void spoil_sloped(struct draw *d, size_t kind, uint8_t *block)
{
    static const uint8_t ends[4] = {0, 1, 5, 255};
    const struct field *before = &place[IN_BLOCK][draw_from(d, 0, SLOPE_IN_BLOCK - 1)];
    const struct field *behind = &FIELD[draw_from(d, SLOPE_PLACE + 3, FIELDS - 1)];
    unsigned how = (unsigned)draw_from(d, 0, 3);
    size_t spare = (size_t)draw_from(d, 77, 509);

    switch (kind) {
    case 1: block[1 + how % 3] ^= (uint8_t)draw_from(d, 1, 255); break;
    case 2: block[4] = ends[how]; break;
    case 3: spoil_field(d, before, how, block); break;
    case 4: put_field(block, &FIELD[SLOPE_PLACE + 1], 151 + 1000 * how); break;
    case 5: put_field(block, &FIELD[SLOPE_PLACE + 2], 9 - 3 * how); break;
    case 6: spoil_field(d, behind, how, block); break;
    case 7: block[spare] = (uint8_t)draw_from(d, 1, 255); break;
    case 8: put_field(block, &FIELD[3], 1); break;
    case 9: put_field(block, &FIELD[3], 50000); break;
    default: break;
    }
}

/* A setting block with two faults, of which the last number is none. */
static void add_sloped_block(struct draw *d, const struct setting *s, size_t a,
                             size_t b, struct record *r)
{
    uint8_t *block = next_block(r);

    lay_setting(s, block);
    spoil_sloped(d, a, block);
    spoil_sloped(d, b, block);
    seal_block(block);
    if (a == 0)
        block[draw_from(d, 1, 511)] ^= (uint8_t)draw_from(d, 1, 254);
}

/* Record number i of slopes in blocks: a change of one alone, with each fault, and
 * with each two; and each change alone. Calls follow now and then, and at the end
 * come the slopes of before. */
static void build_sloped_blocks(struct draw *d, size_t i, struct record *r)
{
    struct scene scene = {.kind = NOISE};
    struct relay relay, other;

    draw_sloped(d, i, &scene.setting);
    start_sloped(d, &scene, r, &relay);
    other = relay;
    change_part(&other, slope_change(&relay.setting, i / 3));
    for (size_t a = 0; a <= BESIDE_BLOCK; a++)
        for (size_t b = a + (a < BESIDE_BLOCK); b <= BESIDE_BLOCK; b++) {
            add_sloped_block(d, &other.setting, a, b, r);
            if (draw_chance(d, 15))
                add_begin(r);
        }
    for (size_t k = 0; k <= SLOPE_CHANGES; k++) {
        other = relay;
        if (k < SLOPE_CHANGES)
            change_part(&other, slope_change(&relay.setting, k));
        lay_setting(&other.setting, next_block(r));
        add_samples(d, &scene, r, 0);
        add_page(d, r);
        add_reset(r);
        add_begin(r);
    }
}

/* Every call on a record as it is: sets that are sound or that 10, 11 and 14 decline,
 * a reset, reads and writes of the page, in it, past it and of other bytes, a view
 * and a begin block; and the record printed. */
static void add_every_call(struct draw *d, struct scene *scene, struct record *r)
{
    static const struct page_call call[14] = {
        {0, 0, 0}, {0, 0, 3},  {0, 0, 5}, {0, 0, 8}, {0, 0, 63},
        {0, 0, 64}, {0, 0, UINT64_MAX}, {1, 2, 3}, {1, 5, 4}, {1, 1, 7},
        {1, 1, 0}, {1, 1, 63}, {1, 1, 64}, {1, 1, 4294967299}};
    static const uint8_t length[4] = {0, 11, 13, 24};
    int16_t list[2 * SET_NUMBERS] = {0};
    int64_t unused = 3 * scene->setting.ends;

    add_sets(d, scene, r, 1, 0);
    if (unused < SET_NUMBERS) {
        scene_set(d, scene, list);
        list[draw_from(d, unused, 11)] = (int16_t)draw_from(d, 1, 99);
        add_numbers(r, list, SET_NUMBERS);
    }
    scene_set(d, scene, list);
    list[draw_from(d, 0, 11)] = draw_chance(d, 50) ? 32001 : -32001;
    add_numbers(r, list, SET_NUMBERS);
    add_numbers(r, list, length[draw_from(d, 0, 3)]);
    add_page_calls(r, call, 14);
    add_view(r);
    add_reset(r);
    add_begin(r);
    next_block(r)[0] = PRINT_KIND;
}

/* A change of one slope, every call, and the slope of before. */
static void add_sloped_calls(struct draw *d, struct scene *scene, struct record *r,
                             struct relay *relay, size_t i)
{
    struct change change = slope_change(&relay->setting, i);
    struct change back = {change.part, part_value(relay, change.part)};
    struct relay before = *relay;
    enum fault fault;

    add_change(r, relay, change);
    fault = record_fault(relay);
    told.changes[SETTING_PART][fault]++;
    count_slope_change(relay, change, fault);
    add_every_call(d, scene, r);
    add_change(r, relay, back);
    if (fault != NONE && !record_same(relay, &before))
        r->kept = 0;
    add_sets(d, scene, r, 2, 0);
    follow(r, relay);
}

/* Record number i of slopes under every call: each change of one, and both at either
 * edge of their range. */
static void build_sloped_calls(struct draw *d, size_t i, struct record *r)
{
    static const struct change edge[4] = {{{SETTING_PART, 66}, 150},
                                          {{SETTING_PART, 64}, 150},
                                          {{SETTING_PART, 64}, 10},
                                          {{SETTING_PART, 66}, 10}};
    struct scene scene;
    struct relay relay;

    draw_scene(d, i, &scene);
    draw_overcurrent(d, (uint8_t)(i % 3), &scene.setting);
    draw_room(d, &scene.setting);
    start_sloped(d, &scene, r, &relay);
    for (size_t k = 0; k < SLOPE_CHANGES; k++)
        add_sloped_calls(d, &scene, r, &relay, (i + k) % SLOPE_CHANGES);
    for (size_t k = 0; k < 4; k++) {
        add_change(r, &relay, edge[k]);
        if (k % 2 == 1)
            add_every_call(d, &scene, r);
    }
}

/* ---- Turned records ---- */

/* A block with its samples negated; one that is refused, as it is. */
static void turn_block(uint8_t *block)
{
    int16_t list[BLOCK_NUMBERS] = {0};
    size_t n = 0;

    if (block[0] == LIST_KIND) {
        n = take_list(block, list);
        turn_samples(list, n);
        lay_list(list, n, block);
    } else if (block[0] == SAMPLE_KIND &&
               read_samples(block, BLOCK_BYTES, list, &n) == ACCEPTED) {
        turn_samples(list, n);
        write_samples(block, BLOCK_BYTES, 0, list, n);
    }
}

/* A record of calls with all samples negated, printed after its last call. */
static void turn_record(struct record *r)
{
    for (size_t i = 1; i < r->blocks; i++)
        turn_block(r->block[i]);
    next_block(r)[0] = PRINT_KIND;
}

/* Whether of two relays one has the other's matched numbers negated, and all
 * else the same. */
static int relay_turned(const struct relay *a, const struct relay *b)
{
    struct relay turned = *b;

    for (size_t i = 0; i < WINDOW_NUMBERS; i++)
        turned.values[i] = -turned.values[i];
    return record_same(a, &turned);
}

/* Whether a turned record's answers are those of before, with nothing behind
 * them but the record printed. */
static int turned_alike(const struct outcome *turned, const struct outcome *before)
{
    return memcmp(turned->text, before->text, before->length) == 0 &&
           strncmp(turned->text + before->length, "record ", 7) == 0 &&
           relay_turned(&turned->relay, &before->relay);
}

/* ---- The run ---- */

/* Record number i: first those of calls alone, each sixth of them on a refused
 * setting; then those with changes, those of sets watched one by one, those of
 * faulty setting blocks and values, those of common blocking, those of overcurrent,
 * and its runs; and those of slopes. */
static void build(struct draw *d, size_t i, struct record *r)
{
    memset(r, 0, sizeof *r);
    r->kept = 1;
    if (i >= SLOPES_FROM + 2 * SLOPED)
        build_sloped_calls(d, i - SLOPES_FROM - 2 * SLOPED, r);
    else if (i >= SLOPES_FROM + SLOPED)
        build_sloped_blocks(d, i - SLOPES_FROM - SLOPED, r);
    else if (i >= SLOPES_FROM)
        build_sloped_values(d, i - SLOPES_FROM, r);
    else if (i >= RUNS_FROM)
        build_run(d, i - RUNS_FROM, r);
    else if (i >= OVER_FROM)
        build_over(d, i - OVER_FROM, r);
    else if (i >= COMMON_FROM)
        build_common(d, i - COMMON_FROM, r);
    else if (i >= VALUES_FROM)
        build_values(d, i - VALUES_FROM, r);
    else if (i >= FAULTY_FROM)
        build_faulty(d, i - FAULTY_FROM, r);
    else if (i > LIMITS)
        build_watched(d, i, r);
    else if (i == LIMITS)
        build_limits(d, r);
    else if (i >= RECORDS)
        build_changes(d, i - RECORDS, r);
    else if (i % 6 == 5)
        build_refused(d, i / 6, r);
    else
        build_calls(d, i / 6 * 5 + i % 6, r);
}

/* Whether record number i comes turned as well: some of those without changes,
 * on a relay that starts. */
static int comes_turned(size_t i)
{
    if (i > LIMITS)
        return i < FAULTY_FROM && i % TURNED == 0;
    return i < RECORDS && i % 6 != 5 && (i / 6 * 5 + i % 6) % TURNED == 0;
}

/* The lines of one record; 0 when a healthy bank starts or differs, a refused call
 * changed the relay record, or a run trips at another set. */
static int put_expected(const struct record *r, struct outcome *out)
{
    int started = 0, right = 1;

    memset(out, 0, sizeof *out);
    heard = out;
    out->run = r->trips_at != 0;
    told.healthy += (unsigned)r->healthy;
    told.neutral += (unsigned)r->neutral;
    for (size_t i = 0; i < r->blocks; i++) {
        const uint8_t *block = r->block[i];

        if (block[0] == SETTING_KIND)
            started = setting_call(&out->relay, block, BLOCK_BYTES);
        else if (started)
            right &= call_block(&out->relay, block);
        else
            made.passed += block[0] == BEGIN_KIND;
    }
    heard = NULL;
    told.records++;
    paged.records += out->paged != 0;
    if (out->run && out->tripped_at != r->trips_at)
        return 0;
    return put_text(out) && r->kept && (right || !r->healthy);
}

/* The lines of a turned record; 0 when the answers are not those of before. */
static int put_turned(const struct record *r, const struct outcome *before)
{
    static struct outcome out;

    if (!put_expected(r, &out) || !turned_alike(&out, before))
        return 0;
    paged.turned += out.paged != 0;
    told.turned[0]++;
    told.turned[1] += out.measured;
    told.turned[2] += out.started;
    told.turned[3] += out.latched;
    return 1;
}

/* The blocks of one record. */
static int put_input(const struct record *r)
{
    return fwrite(r->block, BLOCK_BYTES, r->blocks, stdout) == r->blocks;
}

/* Record number i, and turned where it comes so; 0 when something is not as it
 * must be. */
static int put(struct draw *d, size_t i, int input)
{
    static struct record r;
    static struct outcome out;

    build(d, i, &r);
    if (!(input ? put_input(&r) : put_expected(&r, &out)))
        return 0;
    for (size_t k = 0; !input && i >= COMMON_FROM && i < OVER_FROM && k < 4; k++)
        told.common[k] += out.common[k];
    if (!comes_turned(i))
        return 1;
    turn_record(&r);
    return input ? put_input(&r) : put_turned(&r, &out);
}

/* The stream's end: a setting block that lacks its last byte. */
static int put_short(struct draw *d, int input)
{
    static struct outcome out;
    uint8_t block[BLOCK_BYTES];
    struct setting s;
    int started;

    draw_setting(d, 2, &s);
    lay_setting(&s, block);
    if (input)
        return fwrite(block, 1, BLOCK_BYTES - 1, stdout) == BLOCK_BYTES - 1;
    heard = &out;
    started = setting_call(&out.relay, block, BLOCK_BYTES - 1);
    heard = NULL;
    return put_text(&out) && !started;
}

/* Tells numbers and their sum; whether none of them is zero. */
static int tell(const char *what, const unsigned *number, size_t n)
{
    unsigned sum = 0;
    int all = 1;

    for (size_t i = 0; i < n; i++) {
        sum += number[i];
        all &= number[i] != 0;
    }
    fprintf(stderr, "calls: %s %u:", what, sum);
    for (size_t i = 0; i < n; i++)
        fprintf(stderr, " %u", number[i]);
    fprintf(stderr, "%s\n", all ? "" : ", one kind is missing");
    return all;
}

/* The least of some numbers. */
static unsigned fewest(const unsigned *number, size_t n)
{
    unsigned least = number[0];

    for (size_t i = 1; i < n; i++)
        if (number[i] < least)
            least = number[i];
    return least;
}

/* Tells reads and writes of the page; whether each byte is read, each kind of
 * write is there, and each lot of faults that a call can have at once. */
static int page_calls_told(void)
{
    const unsigned *r = paged.calls[0], *w = paged.calls[1];
    const unsigned reads[4] = {r[0], r[BEYOND], r[INADMISSIBLE],
                               r[BEYOND | INADMISSIBLE]};
    const unsigned writes[6] = {w[0], w[FIXED], w[INADMISSIBLE], w[BEYOND | FIXED],
                                w[FIXED | INADMISSIBLE], w[PAGE_FAULTS - 1]};
    unsigned least = fewest(paged.read, PAGE_BYTES);

    fprintf(stderr, "calls: %u records with page calls, %u of them turned; each "
            "byte read %u times or more; refusals out of order %u\n",
            paged.records, paged.turned, least, paged.wrong);
    return (least != 0 && paged.turned != 0 && paged.wrong == 0) &
           tell("views (full; filling; filling, latched; 12)", paged.views, 4) &
           tell("page reads (0; 15; 12; 15 12)", reads, 4) &
           tell("page writes (0; 16; 12; 15 16; 16 12; 15 16 12)", writes, 6) &
           tell("bytes written (3: 0, 255, other; 4: to 7, above; "
                "7: 0, 1, 2, 255, other)", paged.written, 10);
}

/* Tells what page and calls do to each other; whether all of it is there. A set
 * raises the flags 1, 2, 3 or 4, and a write clears any. */
static int page_events_told(void)
{
    const unsigned *up = paged.raised;
    const unsigned raised[4] = {up[1], up[2], up[3], up[4]};

    return (up[5] + up[6] + up[7] == 0) &
           tell("resets (by call, by page; of a latched relay)", paged.resets, 4) &
           tell("flags raised (start; trip; both; refused set)", raised, 4) &
           tell("no flag, goes on (start; latch)", paged.goes_on, 2) &
           tell("flag beside one that goes on (start; latch)", paged.beside, 2) &
           tell("flags cleared (none, then 1 to 7)", paged.cleared, 8) &
           tell("byte 5 seen (to rise; to fall again)", paged.turns, 2) &
           tell("changed to 7, 8, 255 (flags; mask)", paged.changed, 6);
}

/* The bytes of unused ends' numbers, at 2 ends and at 3: how often at least each is
 * the only one of the first wrong field that isn't zero. */
static unsigned lone_least(enum judged judged)
{
    unsigned lone[30];
    size_t n = 0;

    for (size_t e = 0; e < 2; e++)
        for (size_t i = 12 * e; i < 24; i++)
            if (i % 12 < 10)
                lone[n++] = faulty[judged].lone[e][i];
    return fewest(lone, n);
}

/* Tells of blocks or of values which fields are wrong; whether each is the first
 * and is wrong with its neighbour, at 2, 3 and 4 ends, and all is answered right. */
static int fields_told(const char *what, enum judged judged)
{
    const unsigned lone = lone_least(judged), wrong = faulty[judged].wrong;
    unsigned first[3], pair[3];

    for (size_t e = 0; e < 3; e++) {
        first[e] = fewest(faulty[judged].first[e], places[judged]);
        pair[e] = fewest(faulty[judged].pair[e] + 1, places[judged] - 1);
    }
    fprintf(stderr, "calls: in %s each field wrong as the first %u, %u, %u times or "
            "more, with its neighbour %u, %u, %u; each byte of an unused end alone "
            "%u; answers not right %u\n", what, first[0], first[1], first[2],
            pair[0], pair[1], pair[2], lone, wrong);
    return (fewest(first, 3) != 0 && fewest(pair, 3) != 0) &
           (lone != 0 && wrong == 0) &
           tell("fields wrong at once, 2 to 6", faulty[judged].at_once + 2, 5) &
           tell("first wrong X at curve 0, X at another, curve (2, 3, 4 ends each)",
                faulty[judged].over[0], 9) &
           tell("5 where 6, 7 would come otherwise", faulty[judged].factors, 2);
}

/* Tells what the run has of faulty settings; whether all of it is there. */
static int faults_told(void)
{
    const unsigned *r = faulty[IN_VALUES].refused, *b = faulty[IN_BLOCK].refused;
    const unsigned begun[6] = {r[0], r[4], r[5], r[6], r[7], r[17]};
    const unsigned blocks[9] = {b[0], b[1], b[2], b[3], b[4],
                                b[5], b[6], b[7], b[17]};

    return fields_told("blocks", IN_BLOCK) & fields_told("values", IN_VALUES) &
           tell("setting blocks (0 to 7; 17)", blocks, 9) &
           tell("begin blocks (0; 4 to 7; 17)", begun, 6) &
           tell("begin blocks passed over", &made.passed, 1) &
           tell("made wrong (below; above; ones; one byte; a zero)", made.how, 5) &
           tell("that one byte, 0 to 3", made.byte, 4) &
           tell("faults beside (2, 3, 4 of blocks; 4 of values)", made.beside, 4);
}

/* Tells what the run has of overcurrent; whether all of it is there. */
static int over_told(void)
{
    const unsigned *t = told.changes[TRIP_PART], *s = told.changes[SUM_PART];
    const unsigned changes[3] = {s[NONE], s[SUM], t[NONE]};

    return tell("elements at j (below 11; 11; to 199; 200; above), very inverse",
                over.tenths[0], 5) &
           tell("elements at j, extremely inverse", over.tenths[1], 5) &
           tell("elements that trip, by end", over.trips, MAX_ENDS) &
           tell("sums cleared (before a trip; after)", over.cleared, 2) &
           tell("sums grown (before a trip; after)", over.grown, 2) &
           tell("sums at the limit (come to it; stopped again)", over.limit, 2) &
           tell("sums that stay (refused set; filling; curve 0; unused end)",
                over.stays, 4) &
           tell("resets with (sum; trip; either at an unused end), by call and page",
                over.resets[0], 6) &
           tell("refused 12 by a sum (sample; reset; page)", over.declined, 3) &
           tell("changes of sums (within; past), of trips", changes, 3) &
           tell("lines of cycle blocks (filling; refused; measured)", over.lines, 3);
}

/* Tells what the run has of slopes that fall; whether all of it is there. They are in
 * no setting that starts, nor is a start on their values refused with 6 or 7. */
static int slopes_told(void)
{
    const unsigned *b = slopes.judged[IN_BLOCK], *v = slopes.judged[IN_VALUES];
    const unsigned *w = slopes.written;
    const unsigned blocks[7] = {b[2], b[3], b[4], b[5], b[6], b[7], b[17]};
    const unsigned begun[5] = {v[4], v[5], w[0], w[6], w[7]};

    return (b[0] + v[0] + v[6] + v[7] == 0) &
           tell("setting blocks whose slopes fall (2 to 7; 17)", blocks, 7) &
           tell("begin blocks whose slopes fall (4; 5; 17 where 0, 6, 7 are written)",
                begun, 5) &
           tell("starts on slopes the same (setting blocks; begin blocks)",
                slopes.same, 2) &
           tell("changes of a slope (to fall; the same; rise)", slopes.changes, 3) &
           tell("samples refused 12 by slopes (sound; 10, 11, 14 too)",
                slopes.samples, 4) &
           tell("others refused 12 by slopes (reset; read; write)", slopes.others, 3) &
           tell("page calls on such slopes (read 15; write 15, 16)", slopes.pages, 3);
}

/* Tells what the run has; whether every kind of refusal 12 and of change is
 * among it, turned records that start and latch, and healthy banks with neutral
 * current. A change of the setting can break 4 to 7 or 17, or leave a counter above M;
 * one of another part breaks that part's rule. */
static int all_told(void)
{
    const unsigned *s = told.changes[SETTING_PART], *f = told.changes[FILL_PART];
    const unsigned *v = told.changes[NUMBER_PART], *c = told.changes[COUNTER_PART];
    const unsigned *p = told.changes[PAGE_PART];
    const unsigned within[5] = {s[NONE], f[NONE], v[NONE], c[NONE], p[NONE]};
    const unsigned past[10] = {s[BREAKS_4], s[BREAKS_5], s[BREAKS_6], s[BREAKS_7],
                               s[BREAKS_17], s[COUNTER], f[FILL], v[NUMBER],
                               c[COUNTER], p[PAGE]};

    fprintf(stderr, "calls: %u records, %u of healthy banks, %u of these with neutral "
            "current, %u answers to sample and reset calls\n", told.records,
            told.healthy, told.neutral, told.answers);
    fprintf(stderr, "calls: %u records turned, sets measured %u, started %u, latched "
            "%u\n", told.turned[0], told.turned[1], told.turned[2], told.turned[3]);
    if (told.turned[2] == 0 || told.turned[3] == 0 || told.neutral == 0)
        return 0;
    return tell("refused 12", told.declined, ASKED) &
           tell("changes within the rules", within, 5) &
           tell("changes past them", past, 10) & page_calls_told() &
           page_events_told() & faults_told() & over_told() & slopes_told() &
           tell("common blocking (01 holds back more; trip there; D at P; all blocked)",
                told.common, 4);
}

int main(int argc, char **argv)
{
    struct draw d = {0xCA115}, common = {0xC0330}, over_draw = {0x0CE60255};
    struct draw sloped = {0x510BE};
    int input = argc == 2 && strcmp(argv[1], "input") == 0;

    if (!input && (argc != 2 || strcmp(argv[1], "expect") != 0)) {
        fputs("usage: calls input|expect\n", stderr);
        return 2;
    }
    list_places();
    for (size_t i = 0; i < ALL_RECORDS; i++) {
        struct draw *own = i < COMMON_FROM   ? &d
                           : i < OVER_FROM   ? &common
                           : i < SLOPES_FROM ? &over_draw
                                             : &sloped;

        if (!put(own, i, input)) {
            fprintf(stderr, "calls: record %zu is not as it must be\n", i);
            return 1;
        }
    }
    if (!put_short(&d, input) || (!input && !all_told()))
        return 1;
    return fflush(stdout) != 0;
}
