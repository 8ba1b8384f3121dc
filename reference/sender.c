#include "sender.h"

#include <string.h>

enum {
    SERVICE_BITS = 16,
    TAIL_BITS = 6,
    MAX_DATA_BITS = SERVICE_BITS + 8 * MAX_LENGTH + TAIL_BITS + MAX_DATA_BITS_PER_SYMBOL,
    CODER_MEMORY = 6,
    GENERATOR_A = 0133,
    GENERATOR_B = 0171
};

enum fault find_fault(long mbps, long seed, size_t length)
{
    if (find_rate(mbps) == NULL)
        return FAULT_RATE;
    if (seed < 1 || seed > 127)
        return FAULT_SEED;
    if (length < 1 || length > MAX_LENGTH)
        return FAULT_LENGTH;
    return NO_FAULT;
}

static void build_header(const struct rate *rate, size_t length, bit header[HEADER_BITS])
{
    memset(header, 0, HEADER_BITS);
    for (size_t r = 0; r < 4; r++)
        header[r] = rate->signal_bits[r] == '1';
    for (size_t l = 0; l < 12; l++)
        header[5 + l] = length >> l & 1;
    for (size_t b = 0; b < 17; b++)
        header[17] ^= header[b];
}

/* SERVICE, tail and pads are all zero, so only the message needs writing. */
static void build_data(const uint8_t *bytes, size_t length, bit *data, size_t count)
{
    memset(data, 0, count);
    for (size_t b = 0; b < 8 * length; b++)
        data[SERVICE_BITS + b] = bytes[b / 8] >> b % 8 & 1;
}

static void scramble(long seed, bit *data, size_t count)
{
    bit x[8]; /* x[1] to x[7], numbered as in the standard; x[0] is unused */
    for (size_t place = 1; place <= 7; place++)
        x[place] = seed >> (place - 1) & 1;
    for (size_t b = 0; b < count; b++) {
        bit key = x[7] ^ x[4];
        for (size_t place = 7; place > 1; place--)
            x[place] = x[place - 1];
        x[1] = key;
        data[b] ^= key;
    }
}

/* XOR of the tapped bits; bits before the first count as zero. */
static bit generate(unsigned generator, const bit *data, size_t newest)
{
    bit sum = 0;
    for (size_t age = 0; age <= CODER_MEMORY && age <= newest; age++)
        if (generator & 64u >> age)
            sum ^= data[newest - age];
    return sum;
}

static void convolve(const bit *data, size_t count, bit *coded)
{
    for (size_t b = 0; b < count; b++) {
        coded[2 * b] = generate(GENERATOR_A, data, b);
        coded[2 * b + 1] = generate(GENERATOR_B, data, b);
    }
}

static void puncture(const struct coding *coding, const bit *coded, size_t count, bit *sent)
{
    size_t period = strlen(coding->kept);
    for (size_t c = 0; c < count; c++)
        if (coding->kept[c % period] == '1')
            *sent++ = coded[c];
}

static void interleave(const struct rate *rate, const bit *sent, bit *interleaved)
{
    for (size_t k = 0; k < coded_bits_per_symbol(rate); k++)
        interleaved[interleaved_place(rate, k)] = sent[k];
}

/* Level of one axis from its 1, 2 or 3 bits, the first bit leading. */
static int axis_level(const bit *bits, size_t count)
{
    static const int TWO_LEVELS[2] = {-1, 1};
    static const int FOUR_LEVELS[4] = {/* 00 */ -3, /* 01 */ -1, /* 10 */ 3, /* 11 */ 1};
    static const int EIGHT_LEVELS[8] = {
        /* 000 */ -7, /* 001 */ -5, /* 010 */ -1, /* 011 */ -3,
        /* 100 */ 7,  /* 101 */ 5,  /* 110 */ 1,  /* 111 */ 3,
    };
    if (count == 1)
        return TWO_LEVELS[bits[0]];
    if (count == 2)
        return FOUR_LEVELS[2 * bits[0] + bits[1]];
    return EIGHT_LEVELS[4 * bits[0] + 2 * bits[1] + bits[2]];
}

static struct point map_carrier(const bit *bits, size_t count)
{
    if (count == 1)
        return (struct point){axis_level(bits, 1), 0};
    return (struct point){axis_level(bits, count / 2), axis_level(bits + count / 2, count / 2)};
}

static void map_symbol(const struct rate *rate, const bit *interleaved, struct point *points)
{
    for (size_t n = 0; n < CARRIERS; n++)
        points[n] = map_carrier(interleaved + n * rate->bits_per_carrier, rate->bits_per_carrier);
}

/* From the data bits of whole symbols to their points. */
static void modulate(const struct rate *rate, const bit *data, size_t count,
                     struct point (*symbols)[CARRIERS])
{
    static bit coded[2 * MAX_DATA_BITS], sent[2 * MAX_DATA_BITS];
    convolve(data, count, coded);
    puncture(rate->coding, coded, 2 * count, sent);
    for (size_t n = 0; n < count / data_bits_per_symbol(rate); n++) {
        bit interleaved[MAX_CODED_BITS_PER_SYMBOL];
        interleave(rate, sent + n * coded_bits_per_symbol(rate), interleaved);
        map_symbol(rate, interleaved, symbols[n]);
    }
}

void send_frame(long mbps, long seed, const uint8_t *bytes, size_t length, struct frame *frame)
{
    static bit data[MAX_DATA_BITS];
    const struct rate *rate = find_rate(mbps);
    size_t per_symbol = data_bits_per_symbol(rate);
    size_t tail = SERVICE_BITS + 8 * length;
    size_t used = tail + TAIL_BITS;
    frame->data_symbols = (used + per_symbol - 1) / per_symbol;
    size_t count = frame->data_symbols * per_symbol;
    frame->pad_bits = count - used;

    build_header(rate, length, frame->header);
    modulate(find_rate(6), frame->header, HEADER_BITS, frame->symbols);

    build_data(bytes, length, data, count);
    scramble(seed, data, count);
    /* The tail goes out unscrambled, so that it brings the coder back to zero. */
    memset(data + tail, 0, TAIL_BITS);
    modulate(rate, data, count, frame->symbols + 1);
}
