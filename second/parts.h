/* The parts of a relay record by themselves: what a part holds, a part put to
 * another value, and values at and past the edge of each part's rule. */
#ifndef SECOND_PARTS_H
#define SECOND_PARTS_H

#include "draw.h"

enum part_kind {
    SETTING_PART, FILL_PART, NUMBER_PART, COUNTER_PART, PAGE_PART, SUM_PART,
    TRIP_PART
};
#define PART_KINDS 7

/* One part: of the setting the field at this offset of its block, of the
 * matched numbers that in this place, of the counters that of this system, of
 * the page's bytes the event flags (0) or the interrupt mask (1), of the sums and
 * the trips that of this end. */
struct part {
    enum part_kind kind;
    uint8_t which;
};

/* A part and its value, a matched number by its 32 bits. */
struct change {
    struct part part;
    uint32_t value;
};

uint32_t part_value(const struct relay *relay, struct part part);
void change_part(struct relay *relay, struct change change);
int record_same(const struct relay *a, const struct relay *b);

/* A change in a block and out of it. */
#define CHANGE_KIND 0x57
void lay_change(struct change change, uint8_t block[BLOCK_BYTES]);
struct change take_change(const uint8_t block[BLOCK_BYTES]);

/* Changes over all parts but those of overcurrent, at the edge of each rule and past
 * it: number i, from 0 on, for a record as it is. Those of overcurrent; and those of
 * one slope, of which the first ones make slopes fall. */
#define CHANGES 340
#define OVER_CHANGES 60
#define SLOPE_CHANGES 10
#define FALLING_CHANGES 5
struct change edge_change(struct draw *d, const struct relay *relay, size_t i);
struct change over_change(struct draw *d, size_t i);
struct change slope_change(const struct setting *s, size_t i);

#endif
