/* The measuring engine of a three-phase transformer differential relay, for C.
 *
 * Link with libhost.a, which `rt lib --cpu x86-64` in crates/host writes to its out/: code for x86-64 with SSE2 and the System V calling convention, its red zone
 * included, position independent. At most it calls memcpy, memmove and memset, which a freestanding host must give, and it takes some 4 kB of stack. The calls
 * keep no state, so that they may run in several threads at once, and write to none of what is handed to them. Any bytes may be handed over, of any
 * length and alignment, the same ones twice too; a length of 0 may go with a null pointer. Both calls always return.
 *
 * What is measured: at each end in use, two to four, three phases A, B, C in this rotation have current transformers. The currents of all ends are brought to
 * the same scale and vector group, and added up phase by phase as end 0 has them: three systems A, B, C. D of a system is the amplitude of the fundamental
 * of that sum over the last 12 sets, the differential current. Its restraint r is half the amplitude of end 0 minus end 1 with two ends, and half the
 * sum of the ends' amplitudes with more. D, 2r and the harmonics are whole numbers, rounded down, in thousandths of reference current, amplitude over amplitude.
 * With slopes as fractions, a system starts where
 *
 *    r up to P/2:        D > P
 *    r up to Q:          D > P + m1 (r - P/2)
 *    r above that:       D > P + m1 (Q - P/2) + m2 (r - Q)
 *
 * and a second or fifth harmonic of the sum above its percent of D blocks it, where its flag is set; under common blocking that of one system with D above P
 * blocks all three. A system trips after M sets in a row at which it starts and is not blocked, or at which D is above H, and is latched from then on.
 *
 * Both blocks are of 512 bytes, and numbers of several bytes have the low byte first.
 *
 * Setting block. z is an end, 0 to 3. P, H, Q and X are in thousandths of reference current, which is S over V and the square root of three, taken as
 * 1351/780: in A, 780,000 S / (1351 V) with S and V as in the block.
 *
 *    offset    bytes  field                                               range
 *         0        4  mark                                                "TDP1"
 *         4        1  E, number of ends in use                            2 to 4
 *         5        1  flags: 1 blocking by the second harmonic,           0 to 7
 *                     2 by the fifth, 4 common blocking, added up
 *         6        1  M, confirm count, in sets                           1 to 24
 *         8        4  S, reference power, in 0.1 MVA                      1 to 50,000
 *    12 + 12z      4  V, nominal voltage of end z between phases,         1 to 15,000
 *                     in 0.1 kV
 *    16 + 12z      4  I, primary rated current of its current             1 to 50,000
 *                     transformers, in A
 *    20 + 12z      1  vector group: what enters at end 0 leaves here      0 to 11; 0 at end 0
 *                     so many times 30 degrees later
 *    21 + 12z      1  filter: 1 takes zero sequence out, which no         0, 1
 *                     vector group does by itself
 *        60        2  P, basic threshold                                  100 to 2,500
 *        62        2  H, high-set                                         2,500 to 30,000
 *        64        2  m1, slope of the second section, in percent         10 to 150
 *        66        2  m2, slope of the third section, in percent          10 to 150
 *        68        2  Q, restraint where the third section begins         1,500 to 10,000
 *        70        2  second harmonic that blocks, in percent of D        10 to 50
 *        72        2  fifth harmonic that blocks, in percent of D         10 to 80
 *        74        2  X, pick-up of the overcurrent elements              200 to 4,000; 0 at curve 0
 *        76        1  their curve: 0 off, 1 very, 2 extremely inverse     0 to 2
 *       510     1, 1  the check, a and b
 *
 *    All other bytes are zero, and so are the numbers of ends from E on. Two rules more. The matching factor of an end is I over its reference current: 65,536
 *    times it, 65,536 x 1351 V I / (780,000 S) to the nearest whole number with a half up, is 1,048,576 (16) at most at every end in use, and 32,768 (0.5)
 *    or more at two of them. And m2 is not less than m1 where a relay is to be started.
 *
 * Sample block:
 *
 *    offset    bytes  field                                               range
 *         0        1  mark                                                0x53
 *         1        1  sets held                                           0 to 21
 *    4 + 24i      24  set i, from 0, the oldest: a signed number of       -32,000 to 32,000; 0 at
 *                     16 bits for each end z and phase p (A 0, B 1,       ends that are not in use
 *                     C 2), at 4 + 24i + 6z + 2p
 *       510     1, 1  the check, a and b
 *
 *    All other bytes are zero, those of sets that are not held among them. A set is of one instant, and there are 12 in a cycle.
 *
 *    A sample of 1,000 is the peak of the rated current I of its end: at rated current the samples swing between -1,000 and 1,000. Current into the bank, the
 *    transformer with its current transformers, is positive at every end, so that a through-current sums to zero over the ends, once they are of one
 *    scale and vector group.
 *
 * The check of either block: a and b begin at 0; for each byte from 0 to 509, a is (a + byte) modulo 255, then b is (b + a) modulo 255.
 */
#ifndef TDP_H
#define TDP_H

#include <stddef.h>
#include <stdint.h>

#ifdef __cplusplus
extern "C" {
#endif

#define TDP_BLOCK_BYTES 512 /* of a setting block, and of a sample block */
#define TDP_BLOCK_SETS 21   /* that a sample block can hold */

/* What the calls answer: 0, a refusal, or 100 to 107. Refusals 12 to 16 belong to calls that C does not have. */
enum tdp_answer {
    TDP_READ = 0,         /* the setting block is read, and no refusal applies */
    TDP_LENGTH = 1,       /* a block is not 512 bytes */
    TDP_CHECK = 2,        /* its check is wrong */
    TDP_MARK = 3,         /* its mark is wrong */
    TDP_ENDS = 4,         /* the number of ends is not 2 to 4 */
    TDP_FIELD = 5,        /* a field of a setting block is outside its range, or a byte that must be zero is not; which one is not told */
    TDP_FACTOR_HIGH = 6,  /* a matching factor is above 16 */
    TDP_FACTORS_LOW = 7,  /* the second largest matching factor is below 0.5 */
    TDP_SETS = 8,         /* a sample block holds more than 21 sets */
    TDP_SPARE = 9,        /* a byte of a sample block that must be zero is not */
    TDP_SAMPLE = 10,      /* a sample is beyond +-32,000 */
    TDP_UNUSED_END = 11,  /* a sample of an end that is not in use is not zero */
    TDP_SLOPES_FALL = 17, /* m2 is less than m1: no relay is started */
    TDP_MEASURED = 100    /* every set is taken: this, plus the systems that are latched after the last */
};

/* The systems that an answer from TDP_MEASURED up says are latched, as a sum. TDP_MEASURED must be taken off the answer first: the bits of the answer itself
 * mean nothing, and an answer below it has no systems. */
#define TDP_LATCHED(answer) ((answer) - 100u)
#define TDP_SYSTEM_A 1u
#define TDP_SYSTEM_B 2u
#define TDP_SYSTEM_C 4u

/* Reads a setting block of `length` bytes: TDP_READ, or the first refusal that applies, 1 to 7 in this order. A block whose m2 is less than m1 is read as well:
 * it can be stored and shown; only the start of a relay declines it. So where this call answers TDP_READ, tdp_measure with a sample block of no bytes
 * answers TDP_SLOPES_FALL if no relay can be started on the setting, and else TDP_LENGTH, for the sample block. */
uint32_t tdp_read_setting(const uint8_t *block, size_t length);

/* Starts a fresh relay on a setting block and gives it the sets of one sample block in turn: TDP_MEASURED plus the systems that are latched after the last
 * set; or the first refusal: of the setting block, 1 to 7, then TDP_SLOPES_FALL, then of the sample block, 1, 2, 3, 8, 9, then of each set in turn, 10
 * before 11. (1, 2 and 3 are the setting block's if tdp_read_setting gives them too, and else the sample block's.)
 * The window of a fresh relay is empty: the first eleven sets fill it, and are not measured. So of the 21 sets of a full block 10 are measured, and a confirm
 * count above 10 can not trip in one call, nor in several, since no call goes on from another.
 * To follow a stream, with M of 10 at most, keep the sets that were taken, how many of them came since the last reset or else the start, and which systems
 * are latched. At each new set let n be that number, the new set counted, or M where that is less: hand over the latest 11 + n sets, the new one last, or
 * all where there are fewer. At TDP_SAMPLE or TDP_UNUSED_END the new set is refused: leave it out of what is kept, and all is as before it. Else it is
 * taken, and the systems of the answer are latched as well. A reset unlatches all, and the sets that came before it no longer count, but stay.
 * The answer is the differential element's; the overcurrent elements that bytes 74 to 76 turn on do not show in it. */
uint32_t tdp_measure(const uint8_t *setting, size_t setting_length, const uint8_t *samples, size_t samples_length);

#ifdef __cplusplus
}
#endif

#endif
