/* The profile of one row, 2,049 heights: the proved call beside the four plain passes in C and beside document 004's single loop in C.
   Nanoseconds of processor time a height, all ways in turn in each round; before any time is taken the results are compared as bits.
   Compile with -ffp-contract=off: a fused multiply-add gives other floats. */
#include "timing.h"
#include "../include/terrain.h"
#include <stdio.h>
#include <stdlib.h>
#include <string.h>

enum { N = 2049, CALLS = 2000, WAYS = 3 };

static const float ALPHA = -1.586134342f, BETA = -0.052980118f, GAMMA = 0.882911075f, DELTA = 0.443506852f;

static uint16_t row[N];
static float out[WAYS][N];

static inline float lifted(float c, float left, float x, float right) { return x + c * (left + right); }

/* one pass over the odd or even samples, with the ends outside the loop */
static void pass(float *x, size_t n, size_t first, float c)
{
    size_t i = first;
    if (i == 0) {
        x[0] = lifted(c, x[1], x[0], x[1]);
        i = 2;
    }
    for (; i + 1 < n; i += 2) x[i] = lifted(c, x[i - 1], x[i], x[i + 1]);
    if (i < n) x[i] = lifted(c, x[i - 1], x[i], x[i - 1]);
}

__attribute__((noinline)) static void four_passes(const uint16_t *h, float *x, size_t n)
{
    for (size_t i = 0; i < n; i++) x[i] = h[i];
    pass(x, n, 1, ALPHA);
    pass(x, n, 0, BETA);
    pass(x, n, 1, GAMMA);
    pass(x, n, 0, DELTA);
}

/* the single loop, for an odd n from 5 on; e, f, g and h are carried */
__attribute__((noinline)) static void single_loop(const uint16_t *restrict r, float *restrict x, size_t n)
{
    float e = r[2];
    float f = lifted(ALPHA, r[0], r[1], e);
    float g = lifted(BETA, f, r[0], f);
    float h = lifted(GAMMA, g, f, lifted(BETA, f, e, lifted(ALPHA, e, r[3], r[4])));
    size_t p = 0;
    for (; p + 4 < n; p += 2) {
        float even = r[p + 4];
        float first = lifted(ALPHA, e, r[p + 3], even);
        float second = lifted(BETA, f, e, first);
        float third = lifted(GAMMA, g, f, second);
        x[p] = lifted(DELTA, h, g, third);
        x[p + 1] = third;
        e = even, f = first, g = second, h = third;
    }
    float second = lifted(BETA, f, e, f);
    float third = lifted(GAMMA, g, f, second);
    x[p] = lifted(DELTA, h, g, third);
    x[p + 1] = third;
    x[p + 2] = lifted(DELTA, third, second, third);
}

static void run(int way)
{
    if (way == 0 && terrain_profile(row, N, out[0], N)) exit(1);
    if (way == 1) four_passes(row, out[1], N);
    if (way == 2) single_loop(row, out[2], N);
}

int main(void)
{
    static const char *const names[WAYS] = { "proved", "four passes in C", "single loop in C" };
    static double times[WAYS][ROUNDS];
    uint32_t seed = 2463534242u;
    for (size_t i = 0; i < N; i++) {
        seed = seed * 1664525u + 1013904223u;
        row[i] = (uint16_t)(seed >> 16);
    }
    for (int way = 0; way < WAYS; way++) {
        run(way);
        if (memcmp(out[0], out[way], sizeof out[0])) {
            printf("%s: the floats differ\n", names[way]);
            return 1;
        }
    }
    for (int round = 0; round < ROUNDS; round++)
        for (int way = 0; way < WAYS; way++) {
            double from = now();
            for (int i = 0; i < CALLS; i++) run(way);
            times[way][round] = (now() - from) / CALLS / N;
        }
    printf("the profile of a row of %d heights, ns a height, %d rounds of %d calls: median (best), and the proved call's part of it\n", N, ROUNDS, CALLS);
    for (int way = 0; way < WAYS; way++) in_order(times[way]);
    for (int way = 0; way < WAYS; way++)
        printf("%-18s %6.3f (%5.3f)   %4.2f\n", names[way], median(times[way]), best(times[way]), median(times[0]) / median(times[way]));
    return 0;
}
