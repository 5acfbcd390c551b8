/* A setting block from a planner's numbers: `planner E=2 M=3 S=400 ..` writes the block to standard output, and says on standard error where each number
 * stands, what the matching factors are, and what the relay answers. Without numbers it lists the fields. A number that is not given is 0. The names are
 * those of docs/SPECIFICATION.md, "The setting block", with the number of the end after V, I, g and filter. */
#include <stdio.h>
#include <stdlib.h>
#include <string.h>

#include "tdp.h"

struct field {
    const char *name;
    int offset, bytes;
    unsigned long least, most;
    const char *what;
};

static const struct field fields[] = {
    {"E", 4, 1, 2, 4, "number of ends in use"},
    {"flags", 5, 1, 0, 7, "sum of 1 blocking by the second harmonic, 2 by the fifth, 4 common blocking"},
    {"M", 6, 1, 1, 24, "confirm count, sets"},
    {"S", 8, 4, 1, 50000, "reference power, 0.1 MVA"},
    {"V", 12, 4, 1, 15000, "nominal voltage of an end, 0.1 kV"},
    {"I", 16, 4, 1, 50000, "primary rated current of its current transformers, A"},
    {"g", 20, 1, 0, 11, "its vector group against end 0"},
    {"filter", 21, 1, 0, 1, "1 takes its zero sequence out"},
    {"P", 60, 2, 100, 2500, "basic threshold, thousandths of reference current"},
    {"H", 62, 2, 2500, 30000, "high-set, thousandths of reference current"},
    {"m1", 64, 2, 10, 150, "slope of the second section, percent"},
    {"m2", 66, 2, 10, 150, "slope of the third section, percent; not below m1"},
    {"Q", 68, 2, 1500, 10000, "restraint where the third section begins, thousandths of reference current"},
    {"second", 70, 2, 10, 50, "second harmonic that blocks, percent of D"},
    {"fifth", 72, 2, 10, 80, "fifth harmonic that blocks, percent of D"},
    {"X", 74, 2, 200, 4000, "pick-up of the overcurrent elements, thousandths of reference current; 0 at curve 0"},
    {"curve", 76, 1, 0, 2, "their curve: 0 off, 1 very inverse, 2 extremely inverse"},
};
#define FIELDS (sizeof fields / sizeof *fields)

/* V, I, g and filter are there at each of four ends, 12 bytes on */
static int of_an_end(const struct field *f)
{
    return f->offset >= 12 && f->offset < 24;
}

static unsigned long number_at(const uint8_t *block, int offset, int bytes)
{
    unsigned long x = 0;

    for (int i = 0; i < bytes; i++)
        x |= (unsigned long)block[offset + i] << 8 * i;
    return x;
}

static int tell_names(void)
{
    for (const struct field *f = fields; f < fields + FIELDS; f++)
        fprintf(stderr, "%s%s: %lu to %lu, %s\n", f->name, of_an_end(f) ? "0 .. 3" : "", f->least, f->most, f->what);
    return 2;
}

/* puts one `name=number` into the block; `given` has a mark at the first byte of each field that was given before */
static int put(uint8_t *block, uint8_t *given, const char *word)
{
    for (const struct field *f = fields; f < fields + FIELDS; f++) {
        size_t length = strlen(f->name);
        const char *after = word + length;
        char *end;
        int offset = f->offset;
        unsigned long long x;

        if (strncmp(word, f->name, length) != 0)
            continue;
        if (of_an_end(f) && *after >= '0' && *after <= '3')
            offset += 12 * (*after++ - '0');
        else if (of_an_end(f))
            continue;
        if (*after++ != '=')
            continue;
        x = strtoull(after, &end, 10);
        if (*after < '0' || *after > '9' || *end || x >> 8 * f->bytes) {
            fprintf(stderr, "planner: %s: a whole number, %lu to %lu\n", word, f->least, f->most);
            return 0;
        }
        if (given[offset]++) {
            fprintf(stderr, "planner: %s: given twice\n", word);
            return 0;
        }
        for (int i = 0; i < f->bytes; i++)
            block[offset + i] = (uint8_t)(x >> 8 * i & 255);
        return 1;
    }
    fprintf(stderr, "planner: %s: no field has this name; without numbers, planner lists them\n", word);
    return 0;
}

/* bytes 510 and 511: two sums, each modulo 255 */
static void seal(uint8_t *block)
{
    unsigned a = 0, b = 0;

    for (int i = 0; i < 510; i++) {
        a = (a + block[i]) % 255;
        b = (b + a) % 255;
    }
    block[510] = (uint8_t)a;
    block[511] = (uint8_t)b;
}

/* the numbers of an end, with its reference current, S over the square root of three times V, and its matching factor, I over that */
static void tell_end(const uint8_t *block, int z)
{
    double s = (double)number_at(block, 8, 4), v = (double)number_at(block, 12 + 12 * z, 4), i = (double)number_at(block, 16 + 12 * z, 4);

    fprintf(stderr, "%2d: V%d %.0f, %d: I%d %.0f, %d: g%d %u, %d: filter%d %u", 12 + 12 * z, z, v, 16 + 12 * z, z, i, 20 + 12 * z, z,
            (unsigned)block[20 + 12 * z], 21 + 12 * z, z, (unsigned)block[21 + 12 * z]);
    if (s > 0 && v > 0)
        fprintf(stderr, "; reference current %.1f A, factor %.6f", 780000 * s / (1351 * v), 1351 * v * i / (780000 * s));
    fprintf(stderr, "\n");
}

static int zero(const uint8_t *bytes, int count)
{
    while (count > 0 && bytes[count - 1] == 0)
        count--;
    return count == 0;
}

/* where each number stands: the offset of its first byte, its name, and the number */
static void tell_block(const uint8_t *block)
{
    for (const struct field *f = fields; f < fields + FIELDS; f++) {
        int last = f->offset == 8 || f->offset == 76;

        if (f->offset == 12)
            for (int z = 0; z < 4; z++)
                if (z < block[4] || !zero(block + 12 + 12 * z, 12))
                    tell_end(block, z);
        if (!of_an_end(f))
            fprintf(stderr, "%2d: %s %lu%s", f->offset, f->name, number_at(block, f->offset, f->bytes), last ? "\n" : ", ");
    }
}

static const char *told(uint32_t answer)
{
    switch (answer) {
    case TDP_READ: return "a sound block";
    case TDP_ENDS: return "the number of ends is not 2 to 4";
    case TDP_FIELD: return "a number is outside its range";
    case TDP_FACTOR_HIGH: return "a factor is above 16";
    case TDP_FACTORS_LOW: return "the second largest factor is below 0.5";
    case TDP_SLOPES_FALL: return "m2 is less than m1, and no relay is started";
    default: return "";
    }
}

/* says so where the number of a field is outside its range; an end that is not in use, and X at curve 0, must be 0 */
static void tell_wrong(const uint8_t *block, const struct field *f, int z)
{
    int offset = f->offset + 12 * z;
    int used = of_an_end(f) ? z < block[4] : f->offset != 74 || block[76] != 0;
    unsigned long x = number_at(block, offset, f->bytes), least = used ? f->least : 0, most = !used || offset == 20 ? 0 : f->most;
    char end[2] = {of_an_end(f) ? (char)('0' + z) : '\0', '\0'};

    if (x >= least && x <= most)
        return;
    fprintf(stderr, "%2d: %s%s %lu", offset, f->name, end, x);
    if (!used)
        fprintf(stderr, ": is not in use, and must be 0\n");
    else if (least == most)
        fprintf(stderr, ": must be %lu\n", least);
    else
        fprintf(stderr, ": must be %lu to %lu\n", least, most);
}

/* all that are, in the order of the block */
static void tell_all_wrong(const uint8_t *block)
{
    for (const struct field *f = fields; f < fields + FIELDS; f++) {
        if (f->offset == 12)
            for (int z = 0; z < 4; z++)
                for (const struct field *of = f; of_an_end(of); of++)
                    tell_wrong(block, of, z);
        if (!of_an_end(f))
            tell_wrong(block, f, 0);
    }
}

int main(int count, char **words)
{
    uint8_t block[TDP_BLOCK_BYTES] = "TDP1", given[TDP_BLOCK_BYTES] = {0};
    int known = 1;
    uint32_t answer;

    if (count < 2)
        return tell_names();
    for (int i = 1; i < count; i++)
        known &= put(block, given, words[i]);
    if (!known)
        return 2;
    seal(block);
    tell_block(block);
    answer = tdp_read_setting(block, sizeof block);
    if (answer == TDP_READ && tdp_measure(block, sizeof block, NULL, 0) == TDP_SLOPES_FALL)
        answer = TDP_SLOPES_FALL;
    fprintf(stderr, "the relay answers %u: %s\n", (unsigned)answer, told(answer));
    if (answer == TDP_ENDS || answer == TDP_FIELD)
        tell_all_wrong(block);
    fwrite(block, 1, sizeof block, stdout);
    return answer != TDP_READ;
}
