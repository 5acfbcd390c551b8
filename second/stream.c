/* Follows streams of sets as include/tdp.h says, by the host's measuring call and
 * what the host keeps, and compares with the second program's relay, whose record
 * goes from call to call: whether each set is refused, and which systems are latched
 * after it. Sets that are refused and resets stand in between. */
#include "../include/tdp.h"
#include "draw.h"

#include <stdio.h>
#include <string.h>

#define STREAMS 300
#define STREAM_SETS 240
#define MOST_CONFIRM 10     /* 11 + M sets fit a block */
#define SHOWN 5

static unsigned long sets, resets, refused, latched, differ;

/* What a host keeps: the latest sets that were taken, the oldest first, how many
 * came since the last reset or the start, and the systems that are latched. */
struct host {
    int16_t list[BLOCK_NUMBERS];
    size_t held, since;
    uint32_t latches;
};

/* One set, handed over behind those before it. */
static uint32_t host_set(struct host *h, const uint8_t *setting, size_t confirm,
                         const int16_t set[SET_NUMBERS])
{
    int16_t list[BLOCK_NUMBERS];
    uint8_t block[BLOCK_BYTES];
    size_t measured = h->since + 1 < confirm ? h->since + 1 : confirm;
    size_t before = 10 + measured < h->held ? 10 + measured : h->held;
    uint32_t answer;

    memcpy(list, h->list + SET_NUMBERS * (h->held - before),
           sizeof *list * SET_NUMBERS * before);
    memcpy(list + SET_NUMBERS * before, set, sizeof *list * SET_NUMBERS);
    write_samples(block, sizeof block, 0, list, SET_NUMBERS * (before + 1));
    answer = tdp_measure(setting, BLOCK_BYTES, block, sizeof block);
    if (answer < TDP_MEASURED)
        return answer;
    if (h->held == BLOCK_SETS) {
        memmove(h->list, h->list + SET_NUMBERS,
                sizeof *list * SET_NUMBERS * (BLOCK_SETS - 1));
        h->held--;
    }
    memcpy(h->list + SET_NUMBERS * h->held, set, sizeof *list * SET_NUMBERS);
    h->held++;
    h->since++;
    h->latches |= TDP_LATCHED(answer);
    return 0;
}

static void host_reset(struct host *h)
{
    h->since = 0;
    h->latches = 0;
}

static void compare(const struct relay *r, uint32_t theirs, const struct host *h,
                    uint32_t ours)
{
    uint32_t latches = r->latches[0] + 2u * r->latches[1] + 4u * r->latches[2];

    sets++;
    refused += theirs != 0;
    latched += latches != 0;
    if (ours == theirs && h->latches == latches)
        return;
    if (differ++ < SHOWN)
        printf("stream: set %lu: answer %u and latches %u, not %u and %u\n", sets,
               ours, h->latches, theirs, latches);
}

/* A setting that soon trips, on which a relay can be started. */
static void draw_stream_setting(struct draw *d, struct setting *s)
{
    draw_setting(d, (uint8_t)draw_from(d, 2, 4), s);
    s->confirm = (uint8_t)draw_from(d, 1, MOST_CONFIRM);
    s->pick_up = (uint16_t)draw_from(d, 100, 500);
    s->slope1 = (uint16_t)draw_from(d, 10, 60);
    if (s->slope2 < s->slope1)
        s->slope2 = s->slope1;
    if (draw_chance(d, 60))
        s->flags = 0;
}

/* Currents that come and go, with a reset or a refused set now and then. */
static void follow(struct draw *d)
{
    struct setting s;
    struct relay relay;
    struct host host = {0};
    struct answer answer;
    struct wave wave;
    uint8_t setting[BLOCK_BYTES];
    int16_t set[SET_NUMBERS];
    size_t offset;

    draw_stream_setting(d, &s);
    lay_setting(&s, setting);
    seal_block(setting);
    if (relay_start(&s, &relay, &offset) != ACCEPTED)
        return;
    draw_wave(d, &s, draw_spread(d, 50, 30000), 0, &wave);
    for (size_t k = 0; k < STREAM_SETS; k++) {
        if (draw_chance(d, 4))
            draw_wave(d, &s, draw_spread(d, 50, 30000), (unsigned)draw_from(d, 0, 3),
                      &wave);
        if (draw_chance(d, 5)) {
            resets++;
            relay_reset(&relay);
            host_reset(&host);
        }
        wave_set(&wave, &s, k, set);
        if (draw_chance(d, 5))
            spoil_set(d, &s, set);
        compare(&relay, relay_sample(&relay, set, SET_NUMBERS, &answer), &host,
                host_set(&host, setting, s.confirm, set));
    }
}

int main(void)
{
    struct draw d = {0x57EA};

    for (size_t i = 0; i < STREAMS; i++)
        follow(&d);
    printf("stream: %lu sets, %lu refused, %lu resets, %lu with a latch, %lu differ\n",
           sets, refused, resets, latched, differ);
    return differ != 0 || !refused || !resets || !latched;
}
