/* Drawing of settings, waves, healthy banks and calls of the register page for
 * the comparing programs.
 * All from a seed by whole-number steps, so that each run is the same. */
#ifndef SECOND_DRAW_H
#define SECOND_DRAW_H

#include "relay.h"

struct draw {
    uint64_t state;
};

uint64_t draw_word(struct draw *d);
int64_t draw_from(struct draw *d, int64_t low, int64_t high);
int64_t draw_spread(struct draw *d, int64_t low, int64_t high);
int draw_chance(struct draw *d, unsigned percent);

/* A setting field in the block: where it lies and its range at a used end, and with
 * a curve on. */
struct field {
    size_t at, width;
    uint32_t low, high;
};
#define FIELDS 29
#define PLAIN_FIELDS 27     /* of them without those of overcurrent */
extern const struct field FIELD[FIELDS];
void put_field(uint8_t *block, const struct field *field, uint32_t value);
uint32_t get_field(const uint8_t *block, const struct field *field);

/* Settings. The plain one is document 01's: two ends of factor 1 and group 0,
 * no filter, no blocking. */
extern const struct setting plain_setting;
void aim_factor(struct draw *d, uint32_t power, int64_t factor, struct end *end);
void draw_any_setting(struct draw *d, uint8_t ends, struct setting *s);
void draw_setting(struct draw *d, uint8_t ends, struct setting *s);
void draw_wide_setting(struct draw *d, struct setting *s);
void draw_eighths(struct draw *d, struct setting *s);
void draw_overcurrent(struct draw *d, uint8_t curve, struct setting *s);
void draw_falling(struct draw *d, struct setting *s);

/* What own phase (0), next or before weighs when an end is matched, in 4053ths. */
int64_t phase_weight(const struct end *e, size_t j);

/* A current in every phase of every end: fundamental, second and fifth. */
struct wave {
    int32_t cosine[3][SET_NUMBERS], sine[3][SET_NUMBERS];
};
void draw_wave(struct draw *d, const struct setting *s, int64_t level,
               unsigned harmonics, struct wave *wave);
void wave_set(const struct wave *wave, const struct setting *s, size_t k,
              int16_t list[SET_NUMBERS]);
int16_t clip_sample(int64_t sample);
void spoil_set(struct draw *d, const struct setting *s, int16_t list[SET_NUMBERS]);
void turn_samples(int16_t *list, size_t n);
void measure_list(const struct setting *s, const int16_t list[WINDOW_NUMBERS],
                  struct measured m[SYSTEMS]);
int aim_high_set(struct draw *d, const int16_t list[WINDOW_NUMBERS],
                 struct setting *s);
int aim_pick_up(const int16_t list[WINDOW_NUMBERS], size_t y, int64_t above,
                struct setting *s);
int16_t unloaded_sample(size_t k);

/* Currents of a healthy bank at each set, in thousandths per limb; the end `balance`
 * takes what the others leave. Neutral current (document 02, card 8) comes on top, at
 * ends with the filter off; it has its own shape and its own end for the rest. */
struct bank {
    unsigned shape, neutral_shape;
    size_t balance, neutral_balance;
    int64_t cosine[MAX_ENDS][2], sine[MAX_ENDS][2];
    int64_t zero_sequence[MAX_ENDS];
    int neutral;
    int64_t neutral_cosine[MAX_ENDS][3], neutral_sine[MAX_ENDS][3];
};
void most_sensitive(struct setting *s);
size_t unfiltered_ends(const struct setting *s);
void draw_bank(struct draw *d, const struct setting *s, struct bank *bank);
int draw_neutral(struct draw *d, const struct setting *s, struct bank *bank);
void healthy_set(struct draw *d, const struct setting *s, const struct bank *bank,
                 size_t k, int16_t list[SET_NUMBERS]);

/* The numbers that a set of a healthy bank is made from, in thousandths: w by end and
 * limb, and the number on all phases of each end that filters. */
struct currents {
    int64_t w[MAX_ENDS][3], common[MAX_ENDS];
};
void healthy_currents(struct draw *d, const struct setting *s,
                      const struct bank *bank, size_t k, struct currents *c,
                      int16_t list[SET_NUMBERS]);
int near_set(struct draw *d, const struct setting *s, const struct currents *c,
             int16_t list[SET_NUMBERS]);

/* What a healthy bank is, by the words of document 02, card 8, and of document 01
 * alone; apart from the drawing. The ideal current is in thousandths. */
struct ratio {
    __int128 top, bottom;
};
int64_t limb_sum(const struct currents *c, size_t z);
struct ratio ideal_current(const struct setting *s, size_t z, size_t phase,
                           const struct currents *c, int card8);
int healthy_by_02(const struct setting *s, const struct currents *c,
                  const int16_t list[SET_NUMBERS]);
int healthy_by_01(const struct setting *s, const struct currents *c,
                  const int16_t list[SET_NUMBERS]);

/* A call of the register page: a read (write is 0), or a write of a value. */
struct page_call {
    uint8_t write, value;
    uint64_t offset;
};
struct page_call draw_page_call(struct draw *d);

#endif
