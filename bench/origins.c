/* Maps that start anywhere on the grid: the proved calls at both parities each way, in turn, and as times of the same call at origin 0. The streams
   go a row at a time, into a plane and from one. Planes and maps are compared before a time is kept. */
#include "../include/terrain.h"
#include "maps.h"
#include "strips.h"
#include "timing.h"
#include <stdio.h>
#include <stdlib.h>
#include <string.h>

enum { ORIGINS = 4, FORWARD = 0, WRITER, BACKWARD, READER, CALLS };

static uint16_t *heights, *back;
static int32_t *plane, *other, *work;
static double times[ORIGINS][CALLS][ROUNDS];

static void must(int holds, const char *what)
{
    if (holds) return;
    fprintf(stderr, "bench: %s\n", what);
    exit(1);
}

static void *area(size_t bytes)
{
    void *made = calloc(bytes, 1);
    must(made != NULL, "there is not enough memory");
    return made;
}

static void call(int which, terrain_shape map)
{
    size_t n = map.width * map.height;
    if (which == FORWARD) must(terrain_map_forward(heights, n, map, plane, n, work, n) == 0, "forward is turned away");
    if (which == WRITER) strip_write(heights, map, other);
    if (which == BACKWARD) must(terrain_map_backward(plane, n, map, back, n, work, n) == 0, "backward is turned away");
    if (which == READER) strip_read(plane, map, back);
}

/* Each call twice, the second timed: the caches are as the call itself leaves them. */
static void measure(terrain_shape map, int origin, int round)
{
    size_t n = map.width * map.height;
    for (int which = 0; which < CALLS; which++) {
        call(which, map);
        if (which >= BACKWARD) memset(back, 0, n * sizeof *back);
        double from = now();
        call(which, map);
        times[origin][which][round] = (now() - from) / (double)n;
        if (which == WRITER) must(memcmp(plane, other, n * sizeof *plane) == 0, "the writer's plane differs");
        if (which >= BACKWARD) must(memcmp(heights, back, n * sizeof *back) == 0, "the map that comes back differs");
    }
}

static void print(size_t side)
{
    printf("\n%zu x %zu heights at %d levels, ns a height (times origin 0), a call after itself, median of %d rounds\n", side, side, LEVELS, ROUNDS);
    printf("%-8s %15s %15s %15s %15s\n", "origin", "forward", "writer", "backward", "reader");
    for (int origin = 0; origin < ORIGINS; origin++) {
        printf("(%d, %d)  ", origin & 1, origin >> 1);
        for (int which = 0; which < CALLS; which++) {
            in_order(times[origin][which]);
            printf(" %7.2f (%5.2f)", median(times[origin][which]), median(times[origin][which]) / median(times[0][which]));
        }
        printf("\n");
    }
}

static void square(size_t side)
{
    uint32_t seed = 1;
    size_t n = side * side;
    heights = area(n * sizeof *heights), back = area(n * sizeof *back);
    plane = area(n * sizeof *plane), other = area(n * sizeof *other), work = area(n * sizeof *work);
    for (size_t i = 0; i < n; i++) heights[i] = (uint16_t)((seed = seed * 1664525u + 1013904223u) >> 16);
    for (int round = 0; round < ROUNDS; round++) {
        for (int origin = 0; origin < ORIGINS; origin++) {
            terrain_shape map = shape_of(side, side);
            map.x = origin & 1, map.y = (uint16_t)(origin >> 1);
            measure(map, origin, round);
        }
    }
    print(side);
    free(heights), free(back), free(plane), free(other), free(work);
}

int main(void)
{
    square(1025);
    square(2049);
    return 0;
}
