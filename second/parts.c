#include "parts.h"

#include <string.h>

/* ---- One part ---- */

/* The field at an offset of the setting block. */
static const struct field *field_at(size_t at)
{
    size_t i = 0;

    while (FIELD[i].at != at)
        i++;
    return &FIELD[i];
}

/* The value of a setting field, out of the block that the setting makes. */
static uint32_t setting_value(const struct setting *s, size_t at)
{
    uint8_t block[BLOCK_BYTES];

    lay_setting(s, block);
    return get_field(block, field_at(at));
}

/* A setting field put to a value as far as its bytes hold it. */
static void change_setting(struct setting *s, size_t at, uint32_t value)
{
    uint8_t block[BLOCK_BYTES];

    lay_setting(s, block);
    put_field(block, field_at(at), value);
    take_setting(block, s);
}

/* What a part holds. */
uint32_t part_value(const struct relay *relay, struct part part)
{
    switch (part.kind) {
    case SETTING_PART: return setting_value(&relay->setting, part.which);
    case FILL_PART: return relay->fill;
    case NUMBER_PART: return (uint32_t)relay->values[part.which];
    case PAGE_PART: return part.which == 0 ? relay->flags : relay->mask;
    case SUM_PART: return relay->sums[part.which];
    case TRIP_PART: return relay->trips[part.which];
    default: return relay->counters[part.which];
    }
}

/* Puts a part to another value; all but setting fields, matched numbers and sums are
 * single bytes. */
void change_part(struct relay *relay, struct change change)
{
    size_t which = change.part.which;
    uint8_t byte = (uint8_t)change.value;

    switch (change.part.kind) {
    case SETTING_PART: change_setting(&relay->setting, which, change.value); break;
    case FILL_PART: relay->fill = byte; break;
    case NUMBER_PART: relay->values[which] = (int32_t)change.value; break;
    case PAGE_PART: *(which == 0 ? &relay->flags : &relay->mask) = byte; break;
    case SUM_PART: relay->sums[which] = change.value; break;
    case TRIP_PART: relay->trips[which] = byte; break;
    default: relay->counters[which] = byte; break;
    }
}

/* ---- The whole record ---- */

/* Whether two records hold the same in every part. */
int record_same(const struct relay *a, const struct relay *b)
{
    uint8_t x[BLOCK_BYTES], y[BLOCK_BYTES];

    lay_setting(&a->setting, x);
    lay_setting(&b->setting, y);
    return memcmp(x, y, sizeof x) == 0 && a->fill == b->fill &&
           a->flags == b->flags && a->mask == b->mask &&
           memcmp(a->values, b->values, sizeof a->values) == 0 &&
           memcmp(a->counters, b->counters, sizeof a->counters) == 0 &&
           memcmp(a->latches, b->latches, sizeof a->latches) == 0 &&
           memcmp(a->sums, b->sums, sizeof a->sums) == 0 &&
           memcmp(a->trips, b->trips, sizeof a->trips) == 0;
}

/* ---- Blocks ---- */

/* Byte 1 the kind of part, 2 which of them, 4 to 7 the value. */
void lay_change(struct change change, uint8_t block[BLOCK_BYTES])
{
    memset(block, 0, BLOCK_BYTES);
    block[0] = CHANGE_KIND;
    block[1] = (uint8_t)change.part.kind;
    block[2] = change.part.which;
    for (size_t i = 0; i < 4; i++)
        block[4 + i] = (uint8_t)(change.value >> (8 * i));
}

/* The change that a block tells. */
struct change take_change(const uint8_t block[BLOCK_BYTES])
{
    struct change change = {{(enum part_kind)block[1], block[2]}, 0};

    for (size_t i = 4; i > 0; i--)
        change.value = change.value << 8 | block[3 + i];
    return change;
}

/* ---- Edges ---- */

/* A setting field at both edges of its range and one past each. */
static struct change field_edge(size_t i)
{
    const struct field *f = &FIELD[i / 4];
    const uint32_t edge[4] = {f->low - 1, f->low, f->high, f->high + 1};

    return (struct change){{SETTING_PART, (uint8_t)f->at}, edge[i % 4]};
}

/* The lowest power at which no factor is too high; or at which, of factors not
 * too high, the second largest is too low. */
static uint32_t power_limit(struct setting s, int low)
{
    size_t offset;

    for (s.power = 1; s.power < 50000; s.power++) {
        enum refusal refusal = setting_refusal(&s, &offset);

        if (refusal == FACTOR_TOO_LOW || (!low && refusal == ACCEPTED))
            break;
    }
    return s.power;
}

/* The powers to either side of both limits of the factors. */
static struct change factor_edge(const struct relay *relay, size_t i)
{
    uint32_t power = power_limit(relay->setting, i >= 2);

    return (struct change){{SETTING_PART, 8}, power - (i % 2 == 0 && power > 1)};
}

/* The fill with the window empty, not full, full, and past it. */
static struct change fill_edge(size_t i)
{
    static const uint8_t fill[6] = {0, 11, 12, 13, 14, 255};

    return (struct change){{FILL_PART, 0}, fill[i]};
}

/* Each place in turn with a number beyond the limit. */
static struct change number_beyond(size_t i)
{
    static const int32_t beyond[4] = {MATCHED_LIMIT + 1, -MATCHED_LIMIT - 1, INT32_MAX,
                                      INT32_MIN};

    return (struct change){{NUMBER_PART, (uint8_t)i}, (uint32_t)beyond[i / 3 % 4]};
}

/* Any place with the largest number or the least. */
static struct change number_edge(struct draw *d, size_t i)
{
    int32_t edge = i % 2 == 0 ? MATCHED_LIMIT : -MATCHED_LIMIT;

    return (struct change){{NUMBER_PART, (uint8_t)draw_from(d, 0, 143)}, (uint32_t)edge};
}

/* A counter of 0, of the confirm count, one above it, and the largest. */
static struct change counter_edge(const struct relay *relay, size_t i)
{
    uint32_t confirm = relay->setting.confirm;
    const uint32_t count[4] = {0, confirm, confirm + 1, 255};

    return (struct change){{COUNTER_PART, (uint8_t)(i / 4)}, count[i % 4]};
}

/* The confirm count at the largest counter, or one below it. */
static struct change confirm_edge(const struct relay *relay, size_t i)
{
    uint32_t most = 0;

    for (size_t y = 0; y < SYSTEMS; y++)
        if (relay->counters[y] > most)
            most = relay->counters[y];
    return (struct change){{SETTING_PART, 6}, most - (i % 2 != 0 && most > 1)};
}

/* Flags and interrupt mask at none and some bits, all, one past them, and the
 * largest. */
static struct change page_edge(size_t i)
{
    static const uint8_t byte[5] = {0, 5, 7, 8, 255};

    return (struct change){{PAGE_PART, (uint8_t)(i / 5)}, byte[i % 5]};
}

/* One slope beside the other or at the edge of its range: m2 below m1, m1 above m2;
 * both the same; m2 above m1, m1 below m2. */
struct change slope_change(const struct setting *s, size_t i)
{
    const uint32_t m1 = s->slope1, m2 = s->slope2;
    const struct {
        uint8_t at;
        uint32_t value;
    } to[SLOPE_CHANGES] = {{66, m1 - 1}, {66, m1 - 2}, {66, 10}, {64, m2 + 1},
                           {64, 150},    {66, m1},     {64, m2}, {66, m1 + 1},
                           {66, 150},    {64, m2 - 1}};

    return (struct change){{SETTING_PART, to[i].at}, to[i].value};
}

/* Change number i, in order of the kinds. */
struct change edge_change(struct draw *d, const struct relay *relay, size_t i)
{
    if (i < 4 * PLAIN_FIELDS)
        return field_edge(i);
    i -= 4 * PLAIN_FIELDS;
    if (i < 4)
        return factor_edge(relay, i);
    i -= 4;
    if (i < 6)
        return fill_edge(i);
    i -= 6;
    if (i < WINDOW_NUMBERS)
        return number_beyond(i);
    i -= WINDOW_NUMBERS;
    if (i < 12)
        return counter_edge(relay, i);
    i -= 12;
    if (i < 16)
        return confirm_edge(relay, i);
    i -= 16;
    if (i < 10)
        return page_edge(i);
    i -= 10;
    if (i < SLOPE_CHANGES)
        return slope_change(&relay->setting, i);
    return number_edge(d, i);
}

/* A sum of none, some, close to the limit, at it, and past it. */
static struct change sum_edge(struct draw *d, size_t i)
{
    uint32_t some = (uint32_t)draw_from(d, 1, SUM_LIMIT);
    uint32_t left = (uint32_t)draw_spread(d, 2, 20000000);
    const uint32_t sum[9] = {0, some, SUM_LIMIT - left, SUM_LIMIT - left / 2,
                             SUM_LIMIT - 1, SUM_LIMIT, SUM_LIMIT + 1, 0x80000000,
                             UINT32_MAX};

    return (struct change){{SUM_PART, (uint8_t)(i % 4)}, sum[i / 4]};
}

/* Change number i of overcurrent: sums and trips of each end, X and curve, and the
 * fill below a full window. */
struct change over_change(struct draw *d, size_t i)
{
    if (i < 36)
        return sum_edge(d, i);
    i -= 36;
    if (i < 8)
        return (struct change){{TRIP_PART, (uint8_t)(i % 4)}, (uint32_t)(i / 4)};
    i -= 8;
    if (i < 8)
        return field_edge(4 * PLAIN_FIELDS + i);
    i -= 8;
    if (i < 4)
        return (struct change){{SETTING_PART, 76}, (uint32_t)i % 2 + 1};
    return (struct change){{FILL_PART, 0}, (uint32_t)draw_from(d, 0, 11)};
}
