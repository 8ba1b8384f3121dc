/* Times the proved sender, linked in as a library, beside a plain C sender
 * that streams: one symbol at a time, with only the scrambler register and
 * the coder memory carried on from symbol to symbol. */
#include "modes.h"
#include "timing.h"
#include <stdio.h>
#include <stdlib.h>

enum {
    SERVICE_BITS = 16,
    TAIL_BITS = 6,
    FRAME_BYTES = 4095,
    FRAME_SEED = 93
};

/* The proved sender: a whole frame, returning the same sum as plain_send. */
extern float bench_send(uint32_t rate, uint32_t seed, const uint8_t *bytes, size_t length);

/* Tables made once by make_tables. */
static uint8_t coded_a[128], coded_b[128]; /* by the coder's seven bits */
static uint16_t places[7][MAX_CODED_BITS]; /* by bits per carrier, then coded bit */

struct sender {
    const struct mode *mode;
    const uint8_t *bytes;
    size_t message_bits;
    size_t position;    /* of the next data bit, SERVICE bits included */
    uint32_t scrambler; /* x1 in the lowest bit */
    uint32_t coder;     /* the last seven bits, the newest in bit 6 */
};

static uint8_t parity(uint32_t bits)
{
    return (uint8_t)__builtin_parity(bits);
}

static void make_places(uint32_t bits_per_carrier)
{
    for (uint32_t k = 0; k < CARRIERS * bits_per_carrier; k++)
        places[bits_per_carrier][k] = (uint16_t)interleaved_place(bits_per_carrier, k);
}

static void make_tables(void)
{
    for (uint32_t bits = 0; bits < 128; bits++) {
        coded_a[bits] = parity(bits & 0133);
        coded_b[bits] = parity(bits & 0171);
    }
    make_places(1);
    make_places(2);
    make_places(4);
    make_places(6);
}

static size_t data_symbols(const struct mode *mode, size_t length)
{
    return (SERVICE_BITS + 8 * length + TAIL_BITS + mode->data_bits - 1) / mode->data_bits;
}

/* The scrambled data bits of the next symbol, the tail left zero. Four bits
 * go at once: the first four keys need only the seven bits already there,
 * and a symbol, a byte and the tail start at a multiple of four. */
static void take_data_bits(struct sender *restrict sender, uint8_t *restrict data)
{
    size_t tail = SERVICE_BITS + sender->message_bits;
    size_t position = sender->position;
    uint32_t scrambler = sender->scrambler;
    for (uint32_t b = 0; b < sender->mode->data_bits; b += 4, position += 4) {
        uint32_t keys = (scrambler >> 3 ^ scrambler) & 15; /* the first in bit 3 */
        uint32_t plain = 0;                                /* the first in bit 0 */
        scrambler = scrambler << 4 | keys;
        if (position >= SERVICE_BITS && position < tail)
            plain = sender->bytes[(position - SERVICE_BITS) / 8] >> position % 8 & 15;
        else if (position == tail)
            keys = 0;
        else if (position == tail + 4)
            keys &= 3;
        data[b] = (plain ^ keys >> 3) & 1;
        data[b + 1] = (plain >> 1 ^ keys >> 2) & 1;
        data[b + 2] = (plain >> 2 ^ keys >> 1) & 1;
        data[b + 3] = (plain >> 3 ^ keys) & 1;
    }
    sender->position = position;
    sender->scrambler = scrambler;
}

static inline uint32_t shift_in(uint32_t coder, uint8_t bit)
{
    return coder >> 1 | (uint32_t)bit << 6;
}

/* Codes, punctures and interleaves the bits of one symbol. */
static uint32_t code_symbol(const struct mode *mode, uint32_t coder,
                            const uint8_t *restrict data, uint8_t *restrict interleaved)
{
    const enum coding coding = mode->coding;
    const uint16_t *place = places[mode->bits_per_carrier];
    const uint8_t *end = data + mode->data_bits;
    while (data < end) {
        coder = shift_in(coder, *data++);
        interleaved[*place++] = coded_a[coder];
        interleaved[*place++] = coded_b[coder];
        if (coding == HALF)
            continue;
        coder = shift_in(coder, *data++);
        interleaved[*place++] = coded_a[coder];
        if (coding == TWO_THIRDS)
            continue;
        coder = shift_in(coder, *data++);
        interleaved[*place++] = coded_b[coder];
    }
    return coder;
}

static const float LEVELS_2[2] = {-1, 1};
static const float LEVELS_4[4] = {-3, -1, 3, 1};
static const float LEVELS_8[8] = {-7, -5, -1, -3, 7, 5, 1, 3};

static void map_bpsk(const uint8_t *bits, struct carrier *symbol)
{
    for (size_t n = 0; n < CARRIERS; n++)
        symbol[n] = (struct carrier){0, LEVELS_2[bits[n]], 0};
}

static void map_qpsk(const uint8_t *bits, struct carrier *symbol)
{
    for (size_t n = 0; n < CARRIERS; n++, bits += 2)
        symbol[n] = (struct carrier){0, LEVELS_2[bits[0]], LEVELS_2[bits[1]]};
}

static void map_16qam(const uint8_t *bits, struct carrier *symbol)
{
    for (size_t n = 0; n < CARRIERS; n++, bits += 4)
        symbol[n] = (struct carrier){0, LEVELS_4[bits[0] << 1 | bits[1]],
                                     LEVELS_4[bits[2] << 1 | bits[3]]};
}

static void map_64qam(const uint8_t *bits, struct carrier *symbol)
{
    for (size_t n = 0; n < CARRIERS; n++, bits += 6)
        symbol[n] = (struct carrier){0, LEVELS_8[bits[0] << 2 | bits[1] << 1 | bits[2]],
                                     LEVELS_8[bits[3] << 2 | bits[4] << 1 | bits[5]]};
}

/* Not inlined, so that every carrier is written, also those the sum skips. */
__attribute__((noinline)) static void map_symbol(const struct mode *mode, const uint8_t *bits,
                                                 struct carrier *symbol)
{
    switch (mode->bits_per_carrier) {
    case 1:
        map_bpsk(bits, symbol);
        break;
    case 2:
        map_qpsk(bits, symbol);
        break;
    case 4:
        map_16qam(bits, symbol);
        break;
    default:
        map_64qam(bits, symbol);
    }
}

static void send_header(const struct mode *mode, size_t length, struct carrier *symbol)
{
    uint32_t header = mode->signal_bits | (uint32_t)length << 5;
    uint8_t data[MAX_DATA_BITS], interleaved[MAX_CODED_BITS];
    header |= (uint32_t)parity(header) << 17;
    for (size_t b = 0; b < 24; b++)
        data[b] = header >> b & 1;
    code_symbol(&MODES[0], 0, data, interleaved);
    map_symbol(&MODES[0], interleaved, symbol);
}

static void send_data(struct sender *sender, struct carrier *symbol)
{
    uint8_t data[MAX_DATA_BITS], interleaved[MAX_CODED_BITS];
    take_data_bits(sender, data);
    sender->coder = code_symbol(sender->mode, sender->coder, data, interleaved);
    map_symbol(sender->mode, interleaved, symbol);
}

static float add_symbol(float sum, const struct carrier *symbol)
{
    for (size_t n = 0; n < CARRIERS; n += 7)
        sum += (symbol[n].i + 8) * 31 + (symbol[n].q + 8);
    return sum;
}

/* Closed to the optimiser, as the library is, so that no call is left out. */
__attribute__((noipa)) float plain_send(uint32_t rate, uint32_t seed, const uint8_t *bytes,
                                           size_t length)
{
    const struct mode *mode = find_mode(rate);
    struct sender sender = {mode, bytes, 8 * length, 0, seed, 0};
    struct carrier symbol[CARRIERS];
    send_header(mode, length, symbol);
    float sum = add_symbol(0, symbol);
    for (size_t left = data_symbols(mode, length); left > 0; left--) {
        send_data(&sender, symbol);
        sum = add_symbol(sum, symbol);
    }
    return sum;
}

static uint8_t message[FRAME_BYTES];

static void proved_frames(uint32_t rate, size_t frames)
{
    for (size_t f = 0; f < frames; f++)
        bench_send(rate, FRAME_SEED, message, FRAME_BYTES);
}

static void plain_frames(uint32_t rate, size_t frames)
{
    for (size_t f = 0; f < frames; f++)
        plain_send(rate, FRAME_SEED, message, FRAME_BYTES);
}

static void check_sums(uint32_t rate)
{
    float proved = bench_send(rate, FRAME_SEED, message, FRAME_BYTES);
    float plain = plain_send(rate, FRAME_SEED, message, FRAME_BYTES);
    if (proved == plain)
        return;
    printf("rate %u: the sums differ, proved %.0f, plain C %.0f\n", (unsigned)rate, (double)proved,
           (double)plain);
    exit(1);
}

static void compare(const struct mode *mode)
{
    size_t coded_bits = data_symbols(mode, FRAME_BYTES) * CARRIERS * mode->bits_per_carrier
                        + CARRIERS;
    struct times best = time_sides(proved_frames, plain_frames, mode->rate);
    printf("%4u  %14.3f  %14.3f  %5.2f\n", (unsigned)mode->rate, best.proved / (double)coded_bits,
           best.plain / (double)coded_bits, best.plain / best.proved);
}

int main(void)
{
    make_tables();
    fill_bytes(message, FRAME_BYTES);
    for (size_t m = 0; m < 8; m++)
        check_sums(MODES[m].rate);
    printf("ns per coded bit, best of %d rounds; ratio above 1: the proved sender is faster\n",
           ROUNDS);
    printf("rate          proved         plain C  ratio\n");
    for (size_t m = 0; m < 8; m++)
        compare(&MODES[m]);
    return 0;
}
