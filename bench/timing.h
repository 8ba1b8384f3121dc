/* What every bench needs: bytes to work on, and rounds of two sides timed in
 * the same run. */
#ifndef TIMING_H
#define TIMING_H

#include <stddef.h>
#include <stdint.h>
#include <time.h>

enum { ROUNDS = 15 };

static const double ROUND_NS = 10e6;

/* Does the work of one side at one rate so many times over. */
typedef void work(uint32_t rate, size_t times);

struct times {
    double proved, plain; /* ns */
};

static inline void fill_bytes(uint8_t *bytes, size_t length)
{
    uint32_t state = 1;
    for (size_t b = 0; b < length; b++) {
        state = 1664525u * state + 1013904223u;
        bytes[b] = (uint8_t)(state >> 16);
    }
}

static inline double now_ns(void)
{
    struct timespec now;
    clock_gettime(CLOCK_MONOTONIC, &now);
    return (double)now.tv_sec * 1e9 + (double)now.tv_nsec;
}

/* Mean time of doing the work once, over one round. */
static inline double time_round(work *side, uint32_t rate, size_t times)
{
    double start = now_ns();
    side(rate, times);
    return (now_ns() - start) / (double)times;
}

static inline double smaller(double a, double b)
{
    return a < b ? a : b;
}

/* How often to do the work in a round. Doubled until a round is long enough,
 * since a first short one says little: it also pays for what is done once.
 * The quicker of two counts, so that a stall does not end this early. */
static inline size_t times_in_round(work *side, uint32_t rate)
{
    size_t times = 1;
    while (smaller(time_round(side, rate, times), time_round(side, rate, times)) * (double)times
           < ROUND_NS)
        times *= 2;
    return times;
}

/* The best round of each side. The rounds take turns, so that a slow spell of
 * the machine falls on both. */
static inline struct times time_sides(work *proved, work *plain, uint32_t rate)
{
    size_t proved_times = times_in_round(proved, rate);
    size_t plain_times = times_in_round(plain, rate);
    struct times best = {time_round(proved, rate, proved_times),
                         time_round(plain, rate, plain_times)};
    for (int round = 1; round < ROUNDS; round++) {
        best.proved = smaller(best.proved, time_round(proved, rate, proved_times));
        best.plain = smaller(best.plain, time_round(plain, rate, plain_times));
    }
    return best;
}

#endif
