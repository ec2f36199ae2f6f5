/* A plane rounded by a step, beside plain C: nanoseconds of processor time a number at 1,025 x 1,025 and 5 levels, all ways in turn in each round. The
   first C divides, as one would write it; the second multiplies by the step's reciprocal, which the compiler can do in vectors. Before any
   time is taken the planes are compared.
       rounding [WAY]    that way once, for an instruction counter */
#include "timing.h"
#include "../include/terrain.h"
#include <stdio.h>
#include <stdlib.h>
#include <string.h>

enum { SIDE = 1025, LEVELS = 5, PLACES = SIDE * SIDE, STEPS = 3, WAYS = 3 };

static int32_t before[PLACES], after[WAYS][PLACES];

/* where row r is rounded from: LL stays */
static size_t first_of(size_t r)
{
    enum { LOW = (SIDE + 31) / 32 };
    return r < LOW ? LOW : 0;
}

__attribute__((noinline)) static void divided(int32_t *plane, int32_t step)
{
    for (size_t r = 0; r < SIDE; r++)
        for (size_t i = r * SIDE + first_of(r); i < (r + 1) * SIDE; i++) plane[i] = plane[i] / step * step;
}

__attribute__((noinline)) static void multiplied(int32_t *plane, int32_t step)
{
    int shift = 31;
    while (1 << (shift - 31) < step) shift++;
    uint64_t by = (((uint64_t)1 << shift) + (uint64_t)step - 1) / (uint64_t)step;
    for (size_t r = 0; r < SIDE; r++)
        for (size_t i = r * SIDE + first_of(r); i < (r + 1) * SIDE; i++) {
            int32_t v = plane[i];
            uint32_t size = v < 0 ? 0u - (uint32_t)v : (uint32_t)v, whole = (uint32_t)(size * by >> shift) * (uint32_t)step;
            plane[i] = (int32_t)(v < 0 ? 0u - whole : whole);
        }
}

static void run(int way, int32_t step)
{
    if (way == 1) divided(after[way], step);
    else if (way == 2) multiplied(after[way], step);
    else if (terrain_round(after[way], PLACES, SIDE, SIDE, LEVELS, (size_t)step)) exit(1);
}

int main(int argc, char **argv)
{
    static const char *const names[WAYS] = {"proved", "C, divided", "C, multiplied"};
    static const int32_t steps[STEPS] = {2, 13, 64};
    uint32_t seed = 1;
    for (size_t i = 0; i < PLACES; i++) before[i] = (int32_t)(seed = seed * 1664525u + 1013904223u) >> 12;
    if (argc == 2) {
        memcpy(after[atoi(argv[1])], before, sizeof before);
        return run(atoi(argv[1]), 13), 0;
    }
    printf("a plane rounded, %d x %d, %d levels, ns a number, %d rounds: median (best), and the proved call's part of it; at most 1.2 is wanted\n", SIDE, SIDE,
           LEVELS, ROUNDS);
    for (int s = 0; s < STEPS; s++) {
        static double times[WAYS][ROUNDS];
        for (int way = 0; way < WAYS; way++) memcpy(after[way], before, sizeof before), run(way, steps[s]);
        for (int way = 1; way < WAYS; way++)
            if (memcmp(after[0], after[way], sizeof before)) return printf("step %d: the planes differ\n", (int)steps[s]), 1;
        for (int round = 0; round < ROUNDS; round++)
            for (int way = 0; way < WAYS; way++) {
                memcpy(after[way], before, sizeof before);
                double from = now();
                run(way, steps[s]);
                times[way][round] = (now() - from) / PLACES;
            }
        for (int way = 0; way < WAYS; way++) in_order(times[way]);
        for (int way = 0; way < WAYS; way++)
            printf("step %2d  %-14s %6.3f (%6.3f)   %4.2f\n", (int)steps[s], names[way], median(times[way]), best(times[way]),
                   median(times[0]) / median(times[way]));
    }
    return 0;
}
