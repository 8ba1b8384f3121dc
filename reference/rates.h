/* What a rate of IEEE 802.11a-1999 (clause 17) fixes for sender and receiver
 * alike: modulation, coding and the places of the interleaver. */
#ifndef REFERENCE_RATES_H
#define REFERENCE_RATES_H

#include <stddef.h>

enum {
    CARRIERS = 48,
    MAX_CODED_BITS_PER_SYMBOL = 288, /* 64-QAM */
    MAX_DATA_BITS_PER_SYMBOL = 216   /* 64-QAM at 3/4 */
};

/* `kept` marks with 1 the coded bits sent, in the order A0 B0 A1 B1 A2 B2. */
struct coding {
    size_t data_bits, sent_bits;
    const char *kept;
};

struct rate {
    long mbps;
    const char *signal_bits; /* R1 R2 R3 R4 */
    size_t bits_per_carrier; /* N_BPSC */
    const struct coding *coding;
};

/* The rate of so many Mbit/s, or NULL where there is none. */
const struct rate *find_rate(long mbps);

/* N_CBPS */
size_t coded_bits_per_symbol(const struct rate *rate);

/* N_DBPS */
size_t data_bits_per_symbol(const struct rate *rate);

/* The place within a symbol to which the interleaver moves coded bit k. */
size_t interleaved_place(const struct rate *rate, size_t k);

#endif
