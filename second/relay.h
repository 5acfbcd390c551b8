/* A three-phase transformer differential relay: setting and sample blocks,
 * matching, amplitudes, characteristic, harmonic blocking, trip logic, the
 * register page and backup overcurrent. */
#ifndef SECOND_RELAY_H
#define SECOND_RELAY_H

#include <stddef.h>
#include <stdint.h>

#define BLOCK_BYTES 512     /* a setting or sample block */
#define MAX_ENDS 4
#define SYSTEMS 3
#define SET_NUMBERS 12      /* 4 ends of 3 phases */
#define WINDOW_SETS 12      /* one cycle */
#define BLOCK_SETS 21       /* sets that a sample block can hold */
#define WINDOW_NUMBERS (SET_NUMBERS * WINDOW_SETS)
#define BLOCK_NUMBERS (SET_NUMBERS * BLOCK_SETS)

#define FACTOR_ONE 65536    /* K of a factor of 1 */
#define FACTOR_HIGHEST 1048576
#define FACTOR_SECOND_LOWEST 32768
#define SAMPLE_LIMIT 32000
#define MATCHED_LIMIT 800000

#define BLOCK_ON_SECOND 1   /* bits of the flags */
#define BLOCK_ON_FIFTH 2
#define COMMON_BLOCKING 4

#define CURVES 2            /* of overcurrent: very and extremely inverse */
#define TENTHS_LOWEST 11    /* of X, from which a sum grows */
#define TENTHS_HIGHEST 200
#define SUM_LIMIT 1000000000

#define PAGE_BYTES 64       /* the register page */
#define PAGE_FLAGS 3        /* the bytes of it that can be written */
#define PAGE_MASK 4
#define PAGE_RESET 7
#define NEW_START 1         /* bits of the event flags */
#define NEW_TRIP 2
#define REFUSED_SET 4
#define EVENTS 7            /* all of them */

/* What the relay declines; 0 is accepted. */
enum refusal {
    ACCEPTED = 0,
    BLOCK_LENGTH = 1,
    CHECK_WRONG = 2,
    MARK_WRONG = 3,
    ENDS_WRONG = 4,
    FIELD_WRONG = 5,
    FACTOR_TOO_HIGH = 6,
    FACTOR_TOO_LOW = 7,
    TOO_MANY_SETS = 8,
    ZERO_BYTE_WRONG = 9,
    SAMPLE_BEYOND = 10,
    UNUSED_END_WRONG = 11,
    RECORD_WRONG = 12,
    BUFFER_TOO_SHORT = 13,
    LIST_WRONG = 14,
    PAGE_BEYOND = 15,
    BYTE_FIXED = 16,
    SLOPES_FALL = 17
};

/* One end of the bank: voltage in 0.1 kV, rated current in A. */
struct end {
    uint32_t voltage;
    uint32_t current;
    uint8_t group;
    uint8_t filter;
};

/* The values of a setting block; power in 0.1 MVA, slopes and harmonics in
 * percent, thresholds in thousandths of reference current. */
struct setting {
    uint8_t ends;
    uint8_t flags;
    uint8_t confirm;
    uint32_t power;
    struct end end[MAX_ENDS];
    uint16_t pick_up;       /* P */
    uint16_t high_set;      /* H */
    uint16_t slope1;        /* m1 */
    uint16_t slope2;        /* m2 */
    uint16_t third_section; /* Q */
    uint16_t second;        /* second-harmonic percent */
    uint16_t fifth;         /* fifth-harmonic percent */
    uint16_t overcurrent;   /* X, pick-up of the overcurrent elements */
    uint8_t curve;          /* of these; 0 is off */
};

/* One measuring system's currents and decisions at a full window. */
struct measured {
    int32_t differential;    /* D */
    int32_t twice_restraint; /* R */
    int32_t second;          /* H2 */
    int32_t fifth;           /* H5 */
    uint8_t start;
    uint8_t blocked;
};

/* The relay record: place 12*k + 3*z + y for set k, end z, system y. The event
 * flags are byte 3 of the page, the interrupt mask is byte 4. Sums and trips are
 * those of the ends' overcurrent elements. */
struct relay {
    struct setting setting;
    int32_t values[WINDOW_NUMBERS];
    uint32_t fill;
    uint32_t counters[SYSTEMS];
    uint8_t latches[SYSTEMS];
    uint8_t flags;
    uint8_t mask;
    uint32_t sums[MAX_ENDS];
    uint8_t trips[MAX_ENDS];
};

/* The answer to an accepted set: filling is 1 to 11, or 0 when measured. Tripped are
 * the ends' overcurrent elements. */
struct answer {
    uint32_t filling;
    struct measured system[SYSTEMS];
    uint8_t latched[SYSTEMS];
    uint8_t tripped[MAX_ENDS];
};

/* Blocks. With FIELD_WRONG the offset becomes the lowest of a field outside its
 * rule (document 02, card 3), else 0. Slopes that fall are read and written like
 * others. */
enum refusal read_setting(const uint8_t *bytes, size_t length,
                          struct setting *setting, size_t *offset);
enum refusal setting_refusal(const struct setting *setting, size_t *offset);
enum refusal write_setting(const struct setting *setting, uint8_t *buffer,
                           size_t length, size_t *offset);
enum refusal read_samples(const uint8_t *bytes, size_t length,
                          int16_t numbers[BLOCK_NUMBERS], size_t *count);
enum refusal write_samples(uint8_t *record, size_t record_length, size_t block,
                           const int16_t *list, size_t n);
void lay_setting(const struct setting *setting, uint8_t block[BLOCK_BYTES]);
void take_setting(const uint8_t block[BLOCK_BYTES], struct setting *setting);
void seal_block(uint8_t block[BLOCK_BYTES]);

/* Measuring. The power of the setting must not be zero. */
uint64_t matching_factor(const struct setting *setting, size_t end);
void match_set(const struct setting *setting, const int16_t samples[SET_NUMBERS],
               int32_t matched[SET_NUMBERS]);
int32_t amplitude(const int32_t numbers[WINDOW_SETS], unsigned harmonic);
int starts(const struct setting *setting, int64_t differential,
           int64_t twice_restraint);
void measure_window(const struct setting *setting,
                    const int32_t values[WINDOW_NUMBERS],
                    struct measured system[SYSTEMS]);

/* Backup overcurrent: the entry of a curve's table for j, 11 to 200, and A of an
 * end. */
uint32_t curve_entry(unsigned curve, unsigned j);
int32_t end_amplitude(const int32_t values[WINDOW_NUMBERS], size_t end);

/* The relay. It is not started on slopes that fall (document 02, card 7). A refused
 * call leaves record and answer as before, but that a set refused with 14, 10 or 11
 * raises its flag. */
enum refusal relay_start(const struct setting *setting, struct relay *relay,
                         size_t *offset);
enum refusal relay_sample(struct relay *relay, const int16_t *list, size_t n,
                          struct answer *answer);
enum refusal relay_reset(struct relay *relay);

/* One byte of the register page; a refused read leaves the byte as before. */
enum refusal relay_read(const struct relay *relay, uint64_t offset, uint8_t *byte);
enum refusal relay_write(struct relay *relay, uint64_t offset, uint8_t byte);

/* One sample block from a fresh relay: 100 plus 1, 2, 4 for the latched
 * systems, or the number of the first refusal. */
uint32_t measure_block(const uint8_t *setting, size_t setting_length,
                       const uint8_t *samples, size_t samples_length);

#endif
