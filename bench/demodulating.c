/* Times the proved demodulator, linked in as a library, beside a plain C
 * demodulator. Both take the carriers of one symbol at a time to pairs of soft
 * values. */
#include "modes.h"
#include "timing.h"
#include <math.h>
#include <stdbool.h>
#include <stdio.h>
#include <stdlib.h>

enum {
    COORDINATES = 2 * CARRIERS,
    MAX_VALUES = 3, /* of one coordinate */
    SYMBOLS = 64,
    SYMBOLS_BYTES = 2 * CARRIERS * SYMBOLS,
    CHECKED_TURNS = 2
};

static const float LIMIT = 8, STEPS = 16;

/* The proved demodulator: makes 64 symbols of the bytes and demodulates them
 * so many times over, returning the same sum as plain_demodulate. */
extern uint32_t bench_demodulate(uint32_t rate, uint32_t turns, const uint8_t *bytes,
                                 size_t length);

/* The flag has the type of the value, so that vectors can hold both. */
struct soft {
    int16_t heard; /* 0 where the bit is absent, the value then says nothing */
    int16_t value;
};

struct pair {
    struct soft a, b;
};

/* Of one symbol, every I and then every Q, so that vectors can hold them. */
struct coordinates {
    int16_t heard[COORDINATES];
    float at[COORDINATES];
};

/* Where the soft values of a symbol hold a coded bit: by bits per carrier,
 * then coded bit. The soft values are the first value of every coordinate,
 * then the second of every coordinate, then the third. */
static uint16_t sources[7][MAX_CODED_BITS];

static void make_sources(uint32_t bits_per_carrier)
{
    uint32_t values = bits_per_carrier == 1 ? 1 : bits_per_carrier / 2;
    for (uint32_t k = 0; k < CARRIERS * bits_per_carrier; k++) {
        uint32_t place = interleaved_place(bits_per_carrier, k);
        uint32_t carrier = place / bits_per_carrier;
        uint32_t bit = place % bits_per_carrier;
        uint32_t coordinate = bit / values * CARRIERS + carrier;
        sources[bits_per_carrier][k] = (uint16_t)(bit % values * COORDINATES + coordinate);
    }
}

static void make_tables(void)
{
    make_sources(1);
    make_sources(2);
    make_sources(4);
    make_sources(6);
}

/* What is not a number becomes the lower limit. It may stand in a struck
 * carrier, and must not reach the conversion to a whole number. */
static inline float limited(float x)
{
    float raised = x > -LIMIT ? x : -LIMIT;
    return raised < LIMIT ? raised : LIMIT;
}

/* False where a heard coordinate is not a number. The limits have a loop of
 * their own: over the array the compiler fills whole vectors, which it does
 * not while it picks the carriers apart. */
static inline bool read_carriers(const struct carrier *restrict symbol, bool with_q,
                                 struct coordinates *restrict read)
{
    int refused = 0;
    for (size_t n = 0; n < CARRIERS; n++) {
        int16_t heard = symbol[n].struck == 0;
        refused |= heard & isunordered(symbol[n].i, symbol[n].q);
        read->heard[n] = heard;
        read->at[n] = symbol[n].i;
        if (with_q) {
            read->heard[CARRIERS + n] = heard;
            read->at[CARRIERS + n] = symbol[n].q;
        }
    }
    for (size_t c = 0; c < (with_q ? COORDINATES : CARRIERS); c++)
        read->at[c] = limited(read->at[c]);
    return !refused;
}

static inline int16_t whole(float limited)
{
    return (int16_t)(limited * STEPS);
}

static inline int16_t distance(int16_t centre, int16_t value)
{
    return (int16_t)(centre - abs(value));
}

static bool soften_bpsk(const struct carrier *symbol, struct soft values[][COORDINATES])
{
    struct coordinates read;
    if (!read_carriers(symbol, false, &read))
        return false;
    for (size_t c = 0; c < CARRIERS; c++)
        values[0][c] = (struct soft){read.heard[c], whole(read.at[c])};
    return true;
}

static bool soften_qpsk(const struct carrier *symbol, struct soft values[][COORDINATES])
{
    struct coordinates read;
    if (!read_carriers(symbol, true, &read))
        return false;
    for (size_t c = 0; c < COORDINATES; c++)
        values[0][c] = (struct soft){read.heard[c], whole(read.at[c])};
    return true;
}

static bool soften_16qam(const struct carrier *symbol, struct soft values[][COORDINATES])
{
    struct coordinates read;
    if (!read_carriers(symbol, true, &read))
        return false;
    for (size_t c = 0; c < COORDINATES; c++) {
        int16_t first = whole(read.at[c]);
        values[0][c] = (struct soft){read.heard[c], first};
        values[1][c] = (struct soft){read.heard[c], distance(32, first)};
    }
    return true;
}

static bool soften_64qam(const struct carrier *symbol, struct soft values[][COORDINATES])
{
    struct coordinates read;
    if (!read_carriers(symbol, true, &read))
        return false;
    for (size_t c = 0; c < COORDINATES; c++) {
        int16_t first = whole(read.at[c]);
        int16_t second = distance(64, first);
        values[0][c] = (struct soft){read.heard[c], first};
        values[1][c] = (struct soft){read.heard[c], second};
        values[2][c] = (struct soft){read.heard[c], distance(32, second)};
    }
    return true;
}

static bool soften_symbol(const struct mode *mode, const struct carrier *symbol,
                          struct soft values[][COORDINATES])
{
    switch (mode->bits_per_carrier) {
    case 1:
        return soften_bpsk(symbol, values);
    case 2:
        return soften_qpsk(symbol, values);
    case 4:
        return soften_16qam(symbol, values);
    default:
        return soften_64qam(symbol, values);
    }
}

/* Undoes the interleaving and the puncturing in one pass. */
static void fill_pairs(const struct mode *mode, const struct soft *restrict values,
                       struct pair *restrict pair)
{
    static const struct soft ABSENT = {0, 0};
    const enum coding coding = mode->coding;
    const uint16_t *source = sources[mode->bits_per_carrier];
    const struct pair *end = pair + mode->data_bits;
    while (pair < end) {
        pair->a = values[*source++];
        pair->b = values[*source++];
        pair++;
        if (coding == HALF)
            continue;
        pair->a = values[*source++];
        pair->b = ABSENT;
        pair++;
        if (coding == TWO_THIRDS)
            continue;
        pair->a = ABSENT;
        pair->b = values[*source++];
        pair++;
    }
}

/* Not inlined, so that every pair is written, also those the sum skips. */
__attribute__((noinline)) static bool demodulate_symbol(const struct mode *mode,
                                                        const struct carrier *symbol,
                                                        struct pair *pairs)
{
    struct soft values[MAX_VALUES][COORDINATES];
    if (!soften_symbol(mode, symbol, values))
        return false;
    fill_pairs(mode, values[0], pairs);
    return true;
}

static uint32_t soft_code(struct soft soft)
{
    return soft.heard ? (uint32_t)(soft.value + 200) : 1000;
}

static uint32_t add_pairs(uint32_t sum, const struct mode *mode, const struct pair *pairs)
{
    for (size_t p = 0; p < mode->data_bits; p += 7)
        sum = sum * 31 + 3 * soft_code(pairs[p].a) + soft_code(pairs[p].b);
    return sum;
}

static void make_symbols(const uint8_t *bytes, struct carrier symbols[][CARRIERS])
{
    for (size_t s = 0; s < SYMBOLS; s++)
        for (size_t n = 0; n < CARRIERS; n++, bytes += 2)
            symbols[s][n] = (struct carrier){bytes[1] % 16 == 0, (float)(bytes[0] - 128) / 16,
                                             (float)(bytes[1] - 128) / 16};
}

/* Closed to the optimiser, as the library is, so that no call is left out. */
__attribute__((noipa)) uint32_t plain_demodulate(uint32_t rate, uint32_t turns,
                                                 const uint8_t *bytes, size_t length)
{
    const struct mode *mode = find_mode(rate);
    struct carrier symbols[SYMBOLS][CARRIERS];
    struct pair pairs[MAX_DATA_BITS];
    uint32_t sum = 0;
    if (mode == NULL || length != SYMBOLS_BYTES)
        return 0;
    make_symbols(bytes, symbols);
    for (; turns > 0; turns--) {
        for (size_t s = 0; s < SYMBOLS; s++) {
            if (!demodulate_symbol(mode, symbols[s], pairs))
                return 0;
            sum = add_pairs(sum, mode, pairs);
        }
    }
    return sum;
}

static uint8_t symbols_bytes[SYMBOLS_BYTES];

static void proved_turns(uint32_t rate, size_t turns)
{
    bench_demodulate(rate, (uint32_t)turns, symbols_bytes, SYMBOLS_BYTES);
}

static void plain_turns(uint32_t rate, size_t turns)
{
    plain_demodulate(rate, (uint32_t)turns, symbols_bytes, SYMBOLS_BYTES);
}

static void check_sums(uint32_t rate)
{
    uint32_t proved = bench_demodulate(rate, CHECKED_TURNS, symbols_bytes, SYMBOLS_BYTES);
    uint32_t plain = plain_demodulate(rate, CHECKED_TURNS, symbols_bytes, SYMBOLS_BYTES);
    if (proved == plain)
        return;
    printf("rate %u: the sums differ, proved %u, plain C %u\n", (unsigned)rate, (unsigned)proved,
           (unsigned)plain);
    exit(1);
}

static const char *modulation(const struct mode *mode)
{
    switch (mode->bits_per_carrier) {
    case 1:
        return "BPSK";
    case 2:
        return "QPSK";
    case 4:
        return "16-QAM";
    default:
        return "64-QAM";
    }
}

static const char *coding_rate(const struct mode *mode)
{
    switch (mode->coding) {
    case HALF:
        return "1/2";
    case TWO_THIRDS:
        return "2/3";
    default:
        return "3/4";
    }
}

static void compare(const struct mode *mode)
{
    size_t coded_bits = SYMBOLS * CARRIERS * mode->bits_per_carrier;
    struct times best = time_sides(proved_turns, plain_turns, mode->rate);
    printf("%4u  %-6s %s  %14.3f  %14.3f  %5.2f\n", (unsigned)mode->rate, modulation(mode),
           coding_rate(mode), best.proved / (double)coded_bits, best.plain / (double)coded_bits,
           best.plain / best.proved);
}

int main(void)
{
    make_tables();
    fill_bytes(symbols_bytes, SYMBOLS_BYTES);
    for (size_t m = 0; m < 8; m++)
        check_sums(MODES[m].rate);
    printf("demodulating a symbol: ns per coded bit, best of %d rounds; "
           "ratio above 1: the proved demodulator is faster\n",
           ROUNDS);
    printf("rate  modulation          proved         plain C  ratio\n");
    for (size_t m = 0; m < 8; m++)
        compare(&MODES[m]);
    return 0;
}
