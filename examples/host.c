/* How a C host calls the engine: a setting block is made and read; a current through the bank is measured, and one into it; then blocks that are declined.
 * Each answer is shown, and held to what it must be. Build after `make crates/host/out/libhost.a`:  gcc -Iinclude examples/host.c crates/host/out/libhost.a */
#include <stdio.h>
#include <string.h>

#include "tdp.h"

static void put16(uint8_t *p, unsigned x)
{
    p[0] = (uint8_t)(x & 255);
    p[1] = (uint8_t)(x >> 8 & 255);
}

static void put32(uint8_t *p, unsigned long x)
{
    put16(p, (unsigned)(x & 65535));
    put16(p + 2, (unsigned)(x >> 16));
}

/* bytes 510 and 511: two sums, each modulo 255 */
static void seal(uint8_t *block)
{
    unsigned a = 0, b = 0;
    for (int i = 0; i < 510; i++) {
        a = (a + block[i]) % 255;
        b = (b + a) % 255;
    }
    block[510] = (uint8_t)a;
    block[511] = (uint8_t)b;
}

/* 40 MVA, 110/20 kV, Yd5; current transformers of 300 A and 1,200 A; zero sequence taken out at the star, blocking by both harmonics, three sets to confirm */
static void make_setting(uint8_t *block)
{
    const unsigned values[] = {200, 8000, 30, 70, 4000, 15, 30};
    memset(block, 0, TDP_BLOCK_BYTES);
    memcpy(block, "TDP1", 4);
    block[4] = 2;
    block[5] = 3;
    block[6] = 3;
    put32(block + 8, 400);
    put32(block + 12, 1100);
    put32(block + 16, 300);
    block[21] = 1;
    put32(block + 24, 200);
    put32(block + 28, 1200);
    block[32] = 5;
    for (int i = 0; i < 7; i++)
        put16(block + 60 + 2 * i, values[i]);
    seal(block);
}

/* `peak` times the cosine of so many times 30 degrees */
static int wave(int peak, int angle)
{
    static const int thousandths[12] = {1000, 866, 500, 0, -500, -866, -1000, -866, -500, 0, 500, 866};
    return peak * thousandths[(angle % 12 + 12) % 12] / 1000;
}

/* 21 sets of as many times reference current, 210 A and 1,155 A: 700 and 962 are the peaks of a sample there. It comes in at end 0, and leaves at end 1, 5 times
 * 30 degrees later, where it flows through. Phases B and C lag phase A by 120 and 240 degrees. */
static void make_samples(uint8_t *block, int times, int through)
{
    memset(block, 0, TDP_BLOCK_BYTES);
    block[0] = 0x53;
    block[1] = TDP_BLOCK_SETS;
    for (int i = 0; i < TDP_BLOCK_SETS; i++)
        for (int p = 0; p < 3; p++) {
            uint8_t *sample = block + 4 + 24 * i + 2 * p;
            put16(sample, (unsigned)wave(700 * times, i - 4 * p));
            put16(sample + 6, (unsigned)-wave(through ? 962 * times : 0, i - 4 * p - 5));
        }
    seal(block);
}

static int wrong;

static void show(const char *what, uint32_t answer, uint32_t expected)
{
    printf("%s: %u", what, (unsigned)answer);
    if (answer >= TDP_MEASURED) {
        uint32_t latched = TDP_LATCHED(answer);
        printf(", latched:%s%s%s%s", latched & TDP_SYSTEM_A ? " A" : "", latched & TDP_SYSTEM_B ? " B" : "", latched & TDP_SYSTEM_C ? " C" : "",
               latched ? "" : " none");
    }
    printf("\n");
    wrong |= answer != expected;
}

int main(void)
{
    uint8_t setting[TDP_BLOCK_BYTES], samples[TDP_BLOCK_BYTES];
    make_setting(setting);
    show("setting", tdp_read_setting(setting, sizeof setting), TDP_READ);
    make_samples(samples, 8, 1);
    show("eight times reference current through the bank", tdp_measure(setting, sizeof setting, samples, sizeof samples), TDP_MEASURED);
    make_samples(samples, 8, 0);
    show("the same into it", tdp_measure(setting, sizeof setting, samples, sizeof samples),
         TDP_MEASURED + TDP_SYSTEM_A + TDP_SYSTEM_B + TDP_SYSTEM_C);
    setting[60] ^= 1;
    show("a bit turned", tdp_read_setting(setting, sizeof setting), TDP_CHECK);
    put16(setting + 60, 99);
    seal(setting);
    show("P 99", tdp_read_setting(setting, sizeof setting), TDP_FIELD);
    show("511 bytes", tdp_read_setting(setting, 511), TDP_LENGTH);
    make_setting(setting);
    put16(setting + 66, 29);
    seal(setting);
    show("m2 29 and m1 30, read", tdp_read_setting(setting, sizeof setting), TDP_READ);
    show("m2 29 and m1 30, measured", tdp_measure(setting, sizeof setting, NULL, 0), TDP_SLOPES_FALL);
    return wrong;
}
