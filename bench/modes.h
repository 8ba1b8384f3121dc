/* The eight rates, their carriers and their interleaving, as both the plain C
 * sender and the plain C demodulator use them. */
#ifndef MODES_H
#define MODES_H

#include <stddef.h>
#include <stdint.h>

enum {
    CARRIERS = 48,
    MAX_CODED_BITS = 288, /* of one symbol */
    MAX_DATA_BITS = 216   /* of one symbol */
};

struct carrier {
    uint32_t struck; /* 0 where the carrier is heard */
    float i, q;
};

enum coding { HALF, TWO_THIRDS, THREE_QUARTERS };

struct mode {
    uint32_t rate;        /* Mbit/s */
    uint32_t signal_bits; /* R1 in the lowest bit */
    uint32_t bits_per_carrier;
    uint32_t data_bits; /* of one symbol */
    enum coding coding;
};

static const struct mode MODES[8] = {
    {6, 0xb, 1, 24, HALF},         {9, 0xf, 1, 36, THREE_QUARTERS},
    {12, 0xa, 2, 48, HALF},        {18, 0xe, 2, 72, THREE_QUARTERS},
    {24, 0x9, 4, 96, HALF},        {36, 0xd, 4, 144, THREE_QUARTERS},
    {48, 0x8, 6, 192, TWO_THIRDS}, {54, 0xc, 6, 216, THREE_QUARTERS},
};

static inline const struct mode *find_mode(uint32_t rate)
{
    for (size_t m = 0; m < 8; m++)
        if (MODES[m].rate == rate)
            return &MODES[m];
    return NULL;
}

/* The place in the symbol where the interleaver puts a coded bit. */
static inline uint32_t interleaved_place(uint32_t bits_per_carrier, uint32_t coded_bit)
{
    uint32_t n = CARRIERS * bits_per_carrier;
    uint32_t s = bits_per_carrier == 1 ? 1 : bits_per_carrier / 2;
    uint32_t i = n / 16 * (coded_bit % 16) + coded_bit / 16;
    return s * (i / s) + (i + n - 16 * i / n) % s;
}

#endif
