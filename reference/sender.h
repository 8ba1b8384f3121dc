/* Sender of IEEE 802.11a-1999 (clause 17) frames, from message bytes to
 * carrier points. Whole frames only: the bits are made, scrambled, coded and
 * punctured over the whole frame; then each symbol is interleaved and mapped. */
#ifndef REFERENCE_SENDER_H
#define REFERENCE_SENDER_H

#include "rates.h"

#include <stddef.h>
#include <stdint.h>

enum {
    HEADER_BITS = 24,
    MAX_LENGTH = 4095,
    MAX_DATA_SYMBOLS = 1366 /* 4095 bytes at 6 Mbit/s, 24 data bits a symbol */
};

enum fault { NO_FAULT = 0, FAULT_SEED = 13, FAULT_LENGTH = 14, FAULT_RATE = 16 };

/* One bit, 0 or 1, in a byte of its own. */
typedef uint8_t bit;

/* A point on the whole-number grid, levels -7 to 7. */
struct point {
    int i, q;
};

struct frame {
    size_t data_symbols; /* without the header */
    size_t pad_bits;
    bit header[HEADER_BITS];
    struct point symbols[1 + MAX_DATA_SYMBOLS][CARRIERS]; /* header first */
};

/* The first fault of these arguments, or NO_FAULT. */
enum fault find_fault(long mbps, long seed, size_t length);

/* Fills the frame. The arguments must have no fault. */
void send_frame(long mbps, long seed, const uint8_t *bytes, size_t length,
                struct frame *frame);

#endif
