/* The receiver's front half for IEEE 802.11a-1999 (clause 17): from the
 * carriers of one symbol to what was heard of each coded bit, in the order in
 * which the coder gave them. */
#ifndef REFERENCE_DEMODULATOR_H
#define REFERENCE_DEMODULATOR_H

#include "rates.h"

#include <stdbool.h>
#include <stddef.h>

enum { MAX_HEARD_BITS = 2 * MAX_DATA_BITS_PER_SYMBOL };

/* In grid units. Of a struck carrier nothing was heard: its I and Q mean nothing. */
struct carrier {
    bool struck;
    float i, q;
};

/* A value above zero favours a one, below zero a zero. Zero is a value too: the
 * bit was heard, and favours neither. Of an absent bit the value means nothing. */
struct heard_bit {
    bool absent;
    int value;
};

enum symbol_fault { NO_SYMBOL_FAULT = 0, FAULT_CARRIERS = 1, FAULT_NOT_A_NUMBER = 7 };

/* The carrier, from 0, and its axis, 'I' or 'Q', are named by FAULT_NOT_A_NUMBER only. */
struct symbol_refusal {
    enum symbol_fault fault;
    size_t carrier;
    char axis;
};

/* The first fault of these carriers, or NO_SYMBOL_FAULT. */
struct symbol_refusal find_symbol_fault(const struct carrier *carriers, size_t count);

/* Fills in the coded bits, A and B of each data bit in turn, and returns how
 * many they are. The rate must be one of the eight, the carriers without fault. */
size_t demodulate(long mbps, const struct carrier carriers[CARRIERS],
                  struct heard_bit coded[MAX_HEARD_BITS]);

#endif
