/* A plain C program of document 01's rules, written for the benchmark: a ring of samples, running sums, the same test of the record at each
   call and the same answers. Nothing is proved of it; the benchmark compares its every output with the library's. */
#ifndef BENCHMARK_PLAIN_H
#define BENCHMARK_PLAIN_H
#include <stdbool.h>
#include <stddef.h>
#include <stdint.h>

enum { RING = 2048, EIGHTHS = 256, LAGS = 109, TRACKED = 8, LONGEST_BLOCK = 512 };

typedef struct {
    uint64_t e;
    int64_t h;
} plain_sums;

typedef struct {
    uint32_t hertz; /* the sample rate */
    uint32_t scale, eps, decay, floor;
    uint32_t count;
    int16_t ring[RING];       /* sample number i, from 0 on, stands at i % RING */
    int16_t eighths[EIGHTHS]; /* and at eighth rate */
    plain_sums sums[LAGS];    /* at eighth rate, of the lags 2 to 110 */
    bool tracking;
    uint32_t low, last_best;
    plain_sums eight[TRACKED]; /* while tracking, of the lags from low on */
    uint32_t period;           /* in 1/256 sample; 0: none */
    uint32_t note, rate;
    uint32_t kept;    /* what rounding cut off the rate, 0 to 255 */
    int64_t position; /* in 1/65536 sample */
    uint16_t number, length, repeated, dropped;
    int16_t out[LONGEST_BLOCK];
} plain_tuner;

typedef struct {
    uint32_t number;
    uint16_t written, repeated, dropped;
} plain_answer;

/* A fresh tuner at this sample rate with the settings that are measured, the default ones but for decay 0, and 0; or, where the rate is
   unknown, at 44,100, and 16. */
uint32_t plain_start(plain_tuner *, uint32_t hertz);
plain_answer plain_block(plain_tuner *, uint16_t number, const int16_t *samples, size_t n, int16_t *out, size_t room);
#endif
