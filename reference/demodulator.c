#include "demodulator.h"

#include <math.h>
#include <stdlib.h>
#include <string.h>

enum { STEPS_PER_UNIT = 16, FARTHEST_UNIT = 8 };

static const struct heard_bit ABSENT = {true, 0};

/* Both axes are looked at under every modulation, though BPSK makes no use of Q. */
struct symbol_refusal find_symbol_fault(const struct carrier *carriers, size_t count)
{
    if (count != CARRIERS)
        return (struct symbol_refusal){.fault = FAULT_CARRIERS};
    for (size_t n = 0; n < CARRIERS; n++) {
        if (carriers[n].struck)
            continue;
        if (isnan(carriers[n].i))
            return (struct symbol_refusal){FAULT_NOT_A_NUMBER, n, 'I'};
        if (isnan(carriers[n].q))
            return (struct symbol_refusal){FAULT_NOT_A_NUMBER, n, 'Q'};
    }
    return (struct symbol_refusal){.fault = NO_SYMBOL_FAULT};
}

/* Limited first, so that infinities too become numbers that an int can hold. */
static int whole_steps(float coordinate)
{
    if (coordinate > FARTHEST_UNIT)
        coordinate = FARTHEST_UNIT;
    if (coordinate < -FARTHEST_UNIT)
        coordinate = -FARTHEST_UNIT;
    /* The product is exact, and the conversion drops the fraction toward zero. */
    return (int)(coordinate * STEPS_PER_UNIT);
}

static struct heard_bit heard(int value)
{
    return (struct heard_bit){false, value};
}

/* The 1, 2 or 3 bits of one axis. Each value says how far, in steps, the
 * coordinate is from the nearest place at which its bit turns, and on which side. */
static void demap_axis(float coordinate, size_t count, struct heard_bit *bits)
{
    int r = whole_steps(coordinate);
    bits[0] = heard(r);
    if (count == 2) {
        bits[1] = heard(32 - abs(r));
    } else if (count == 3) {
        bits[1] = heard(64 - abs(r));
        bits[2] = heard(32 - abs(64 - abs(r)));
    }
}

static void demap_carrier(const struct carrier *carrier, size_t count, struct heard_bit *bits)
{
    if (carrier->struck) {
        for (size_t b = 0; b < count; b++)
            bits[b] = ABSENT;
    } else if (count == 1) {
        demap_axis(carrier->i, 1, bits);
    } else {
        demap_axis(carrier->i, count / 2, bits);
        demap_axis(carrier->q, count / 2, bits + count / 2);
    }
}

static void demap_symbol(const struct rate *rate, const struct carrier *carriers,
                         struct heard_bit *interleaved)
{
    for (size_t n = 0; n < CARRIERS; n++)
        demap_carrier(&carriers[n], rate->bits_per_carrier,
                      interleaved + n * rate->bits_per_carrier);
}

static void deinterleave(const struct rate *rate, const struct heard_bit *interleaved,
                         struct heard_bit *sent)
{
    for (size_t k = 0; k < coded_bits_per_symbol(rate); k++)
        sent[k] = interleaved[interleaved_place(rate, k)];
}

/* Nothing can have been heard of the bits that the sender stole. */
static void refill(const struct coding *coding, const struct heard_bit *sent,
                   struct heard_bit *coded, size_t count)
{
    size_t period = strlen(coding->kept);
    for (size_t c = 0; c < count; c++)
        coded[c] = coding->kept[c % period] == '1' ? *sent++ : ABSENT;
}

size_t demodulate(long mbps, const struct carrier carriers[CARRIERS],
                  struct heard_bit coded[MAX_HEARD_BITS])
{
    struct heard_bit interleaved[MAX_CODED_BITS_PER_SYMBOL], sent[MAX_CODED_BITS_PER_SYMBOL];
    const struct rate *rate = find_rate(mbps);
    size_t count = 2 * data_bits_per_symbol(rate);
    demap_symbol(rate, carriers, interleaved);
    deinterleave(rate, interleaved, sent);
    refill(rate->coding, sent, coded, count);
    return count;
}
