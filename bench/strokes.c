/* Brush strokes at 2,049 x 2,049 and 5 levels: the mended plane beside the whole bake, milliseconds of processor time, all ways in turn in each
   round. The call zeroes its work area; the zeroing is timed by itself on the same area, and taken off for the local work. Before any time is
   taken the planes are compared. */
#include "timing.h"
#include "../include/terrain.h"
#include <stdio.h>
#include <stdlib.h>
#include <string.h>

enum { SIDE = 2049, LEVELS = 5, PLACES = SIDE * SIDE, SIZES = 4, WAYS = SIZES + 2 };

static uint16_t heights[PLACES];
static int32_t plane[PLACES], baked[PLACES], work[PLACES];
static const size_t sizes[SIZES] = {1, 64, 256, 1024};

static void bake(int32_t *to)
{
    if (terrain_map_forward(heights, PLACES, terrain_shape_of(SIDE, SIDE, LEVELS), to, PLACES, work, PLACES)) exit(1);
}

static void mend(size_t size)
{
    terrain_rectangle r = {500, 500, size, size};
    if (terrain_map_mend(heights, PLACES, SIDE, SIDE, LEVELS, r, plane, PLACES, work, PLACES)) exit(1);
}

static void zero(void)
{
    memset(work, 0, sizeof work);
    __asm__ volatile("" : : "r"(work) : "memory");
}

int main(void)
{
    static double times[WAYS][ROUNDS];
    for (size_t i = 0; i < PLACES; i++) heights[i] = (uint16_t)(i * 2654435761u >> 13);
    bake(plane);
    for (size_t i = 0; i < SIZES; i++) {
        for (size_t row = 500; row < 500 + sizes[i]; row++)
            for (size_t column = 500; column < 500 + sizes[i]; column++) heights[row * SIDE + column] ^= (uint16_t)(row * column);
        mend(sizes[i]);
        bake(baked);
        if (memcmp(plane, baked, sizeof plane)) return fprintf(stderr, "strokes: the planes differ at %zu\n", sizes[i]), 1;
    }
    for (int round = 0; round < ROUNDS; round++)
        for (int way = 0; way < WAYS; way++) {
            zero(); /* each way finds the work area as the one before it would leave it */
            double from = now();
            if (way == 0) bake(baked);
            else if (way == 1) zero();
            else mend(sizes[way - 2]);
            times[way][round] = (now() - from) / 1e6;
        }
    for (int way = 0; way < WAYS; way++) in_order(times[way]);
    printf("strokes, %d x %d, %d levels, ms (best): bake %.2f, zeroing %.2f\n", SIDE, SIDE, LEVELS, best(times[0]), best(times[1]));
    for (int i = 0; i < SIZES; i++) {
        double all = best(times[i + 2]), local = all - best(times[1]);
        printf("  %4zu x %-4zu  with zeroing %6.2f (%4.1f %% of a bake)  without %6.2f (%4.1f %%)\n", sizes[i], sizes[i], all,
               100 * all / best(times[0]), local, 100 * local / best(times[0]));
    }
    return 0;
}
