/* The tolerant reader beside the strict one and beside the same reader over a rounded plane: nanoseconds of processor time a height, all ways in turn in each
   round, each fed from a plane of its own map. Before any time is taken the heights are compared: from the exact plane both draw the map, from the rounded one
   no height is off by more than the promise.
       tolerant [WAY SIDE]    that way once, for an instruction counter */
#include "timing.h"
#include "../include/terrain.h"
#include <stdio.h>
#include <stdlib.h>
#include <string.h>

enum { MOST = 2049, PLACES = MOST * MOST, LEVELS = 5, STEP = 8, STRICT = 0, TOLERANT, ROUNDED, WAYS };

static uint16_t heights[PLACES], back[PLACES];
static int32_t exact[PLACES], rounded[PLACES], work[PLACES], store[TERRAIN_MAX_STORE_LENGTH];

static void check(uint32_t answer)
{
    if (answer == 0) return;
    fprintf(stderr, "tolerant: %s (%u)\n", terrain_sentence(answer), (unsigned)answer);
    exit(1);
}

/* Feeds and draws as it wants, until Done. The shape is lent, since gcc copies one that is handed on. */
static void read_on(uint64_t *state, const terrain_shape *map, const int32_t *from, uint16_t *to)
{
    uint64_t want[TERRAIN_WANT_LENGTH];
    size_t start, length;
    for (;;) {
        check(terrain_reader_want(state, want));
        if (want[0] == TERRAIN_WANT_ROW) {
            check(terrain_band_row(map->width * map->height, *map, want[1], want[2], want[3], &start, &length));
            check(terrain_reader_feed(state, store, TERRAIN_MAX_STORE_LENGTH, from + start, length));
        } else if (want[0] == TERRAIN_WANT_DRAW) {
            check(terrain_reader_draw(state, store, TERRAIN_MAX_STORE_LENGTH, to, MOST, &length));
            to += length;
        } else {
            return;
        }
    }
}

static void run(int way, const terrain_shape *map)
{
    uint64_t state[TERRAIN_STATE_LENGTH];
    check(way == STRICT ? terrain_reader_set_up(state, *map, store, TERRAIN_MAX_STORE_LENGTH)
                        : terrain_tolerant_set_up(state, map->width, map->height, map->levels, store, TERRAIN_MAX_STORE_LENGTH));
    read_on(state, map, way == ROUNDED ? rounded : exact, back);
}

/* A rough landscape that has no height near the ends, and both its planes. */
static terrain_shape bake(size_t side)
{
    terrain_shape map = terrain_shape_of(side, side, LEVELS);
    size_t n = side * side;
    for (size_t i = 0; i < n; i++) heights[i] = (uint16_t)(20000 + 9 * (i % side) + 6 * (i / side) + (i * 2654435761u >> 13) % 1024);
    check(terrain_map_forward(heights, n, map, exact, n, work, n));
    memcpy(rounded, exact, n * sizeof *exact);
    check(terrain_round(rounded, n, side, side, LEVELS, STEP));
    return map;
}

static void compare(int way, size_t n)
{
    size_t most = 0, bound = 0;
    for (size_t i = 0; i < n; i++) {
        size_t off = (size_t)abs((int)back[i] - (int)heights[i]);
        if (off > most) most = off;
    }
    check(terrain_error_bound(LEVELS, way == ROUNDED ? STEP : 1, &bound));
    if (most > bound) fprintf(stderr, "tolerant: a height is off by %zu\n", most), exit(1);
}

static void time_side(size_t side)
{
    static const char *const names[WAYS] = {"strict", "tolerant", "tolerant, rounded by 8"};
    static double times[WAYS][ROUNDS];
    terrain_shape map = bake(side);
    double n = (double)(side * side);
    for (int way = 0; way < WAYS; way++) run(way, &map), compare(way, side * side);
    for (int round = 0; round < ROUNDS; round++)
        for (int way = 0; way < WAYS; way++) {
            double from = now();
            run(way, &map);
            times[way][round] = (now() - from) / n;
        }
    for (int way = 0; way < WAYS; way++) in_order(times[way]);
    for (int way = 0; way < WAYS; way++)
        printf("%4zu x %-4zu  %-24s %6.3f (%6.3f)   %4.2f (%4.2f)\n", side, side, names[way], median(times[way]), best(times[way]),
               median(times[way]) / median(times[STRICT]), best(times[way]) / best(times[STRICT]));
}

int main(int argc, char **argv)
{
    if (argc == 3) {
        terrain_shape map = bake((size_t)atoi(argv[2]));
        return run(atoi(argv[1]), &map), 0;
    }
    printf("the tolerant reader beside the strict one, %d levels, ns a height, %d rounds: median (best), and times the strict one's\n", LEVELS, ROUNDS);
    time_side(257);
    time_side(1025);
    time_side(2049);
    return 0;
}
