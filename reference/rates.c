#include "rates.h"

static const struct coding HALF = {1, 2, "11"};
static const struct coding TWO_THIRDS = {2, 3, "1110"};
static const struct coding THREE_QUARTERS = {3, 4, "111001"};

static const struct rate RATES[] = {
    {6, "1101", 1, &HALF},        {9, "1111", 1, &THREE_QUARTERS},
    {12, "0101", 2, &HALF},       {18, "0111", 2, &THREE_QUARTERS},
    {24, "1001", 4, &HALF},       {36, "1011", 4, &THREE_QUARTERS},
    {48, "0001", 6, &TWO_THIRDS}, {54, "0011", 6, &THREE_QUARTERS},
};

const struct rate *find_rate(long mbps)
{
    for (size_t r = 0; r < sizeof RATES / sizeof RATES[0]; r++)
        if (RATES[r].mbps == mbps)
            return &RATES[r];
    return NULL;
}

size_t coded_bits_per_symbol(const struct rate *rate)
{
    return CARRIERS * rate->bits_per_carrier;
}

size_t data_bits_per_symbol(const struct rate *rate)
{
    return coded_bits_per_symbol(rate) * rate->coding->data_bits / rate->coding->sent_bits;
}

size_t interleaved_place(const struct rate *rate, size_t k)
{
    size_t n = coded_bits_per_symbol(rate);
    size_t s = rate->bits_per_carrier < 2 ? 1 : rate->bits_per_carrier / 2;
    size_t i = n / 16 * (k % 16) + k / 16;
    return s * (i / s) + (i + n - 16 * i / n) % s;
}
