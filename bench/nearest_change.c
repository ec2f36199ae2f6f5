/* The nearest change of a cell: the proved call beside the same trials in C, for every cell of a map of 257 x 257 heights, on rough ground and
   on flat ground at the largest height, where most trials are needed. Nanoseconds of processor time a cell, both ways in turn in each round;
   before any time is taken the answers are compared. */
#include "timing.h"
#include "../include/terrain.h"
#include <stdio.h>
#include <stdlib.h>
#include <string.h>

enum { SIDE = 257, CELLS = (SIDE + 1) / 2, WAYS = 2, GROUNDS = 2 };

static uint16_t ground[GROUNDS][SIDE * SIDE];
static uint64_t answers[WAYS][CELLS * CELLS][3];

static int mirrored(int p)
{
    p = abs(p);
    return p < SIDE ? p : 2 * (SIDE - 1) - p;
}

/* the low value of five samples; >> rounds down */
static int low(const int x[5])
{
    int before = x[1] - ((x[0] + x[2]) >> 1), after = x[3] - ((x[2] + x[4]) >> 1);
    return x[2] + ((before + after + 2) >> 2);
}

__attribute__((noinline)) static void in_c(const uint16_t *heights, int row, int column, uint64_t change[3])
{
    int rows[5], columns[5], window[5][5], lows[5];
    for (int i = 0; i < 5; i++) rows[i] = mirrored(2 * row + i - 2), columns[i] = mirrored(2 * column + i - 2);
    for (int k = 0; k < 5; k++) {
        for (int i = 0; i < 5; i++) window[k][i] = heights[rows[i] * SIDE + columns[k]];
        lows[k] = low(window[k]);
    }
    int value = low(lows);
    for (int by = 1; by <= 4; by++)
        for (int sign = 1; sign >= -1; sign -= 2)
            for (int i = 0; i < 5; i++)
                for (int k = 0; k < 5; k++) {
                    int r = 2 * row + i - 2, c = 2 * column + k - 2, height = window[k][i] + sign * by, one[5], all[5];
                    if (r < 0 || r >= SIDE || c < 0 || c >= SIDE || height < 0 || height > 65535) continue;
                    for (int j = 0; j < 5; j++) one[j] = rows[j] == r ? height : window[k][j];
                    int changed = low(one);
                    for (int j = 0; j < 5; j++) all[j] = columns[j] == c ? changed : lows[j];
                    if (low(all) == value) continue;
                    change[0] = (uint64_t)r, change[1] = (uint64_t)c, change[2] = (uint64_t)height;
                    return;
                }
}

static void run(int way, const uint16_t *heights)
{
    for (int r = 0; r < CELLS; r++)
        for (int c = 0; c < CELLS; c++) {
            uint64_t *change = answers[way][r * CELLS + c];
            if (way == 1) in_c(heights, r, c, change);
            else if (terrain_nearest_change(heights, SIDE * SIDE, SIDE, SIDE, (size_t)r, (size_t)c, change)) exit(1);
        }
}

int main(void)
{
    static const char *const names[WAYS] = { "proved", "the trials in C" };
    static const char *const grounds[GROUNDS] = { "rough ground", "flat ground" };
    uint32_t seed = 2463534242u;
    for (size_t i = 0; i < SIDE * SIDE; i++) {
        seed = seed * 1664525u + 1013904223u;
        ground[0][i] = (uint16_t)(seed >> 16);
        ground[1][i] = 65535;
    }
    printf("the nearest change of a cell, %d x %d heights, ns a cell, %d rounds: median (best), and the proved call's part of it\n", SIDE, SIDE, ROUNDS);
    for (int g = 0; g < GROUNDS; g++) {
        static double times[WAYS][ROUNDS];
        for (int way = 0; way < WAYS; way++) run(way, ground[g]);
        if (memcmp(answers[0], answers[1], sizeof answers[0])) {
            printf("%s: the answers differ\n", grounds[g]);
            return 1;
        }
        for (int round = 0; round < ROUNDS; round++)
            for (int way = 0; way < WAYS; way++) {
                double from = now();
                run(way, ground[g]);
                times[way][round] = (now() - from) / CELLS / CELLS;
            }
        for (int way = 0; way < WAYS; way++) in_order(times[way]);
        for (int way = 0; way < WAYS; way++)
            printf("%-13s %-16s %7.1f (%6.1f)   %4.2f\n", grounds[g], names[way], median(times[way]), best(times[way]), median(times[0]) / median(times[way]));
    }
    return 0;
}
