/* Distant ground: a reader of a map of 2,049 x 2,049 heights that stops at level j, beside a reader of the whole map of that level's size with the
   levels that are left, fed the same numbers. Nanoseconds of processor time a height drawn, both ways in turn in each round; before any time is
   taken the heights are compared. Each is fed from the plane of its own map.
       stops [WAY LEVEL FILTER]    that way once, for an instruction counter */
#include "timing.h"
#include "../include/terrain.h"
#include <stdio.h>
#include <stdlib.h>
#include <string.h>

enum { SIDE = 2049, PLACES = SIDE * SIDE, WAYS = 2 };

static uint16_t heights[PLACES], back[WAYS][PLACES];
static int32_t plane[PLACES], coarse[PLACES], work[PLACES], store[TERRAIN_MAX_STORE_LENGTH];

static void check(uint32_t answer)
{
    if (answer == 0) return;
    fprintf(stderr, "stops: %s (%u)\n", terrain_sentence(answer), (unsigned)answer);
    exit(1);
}

/* Feeds and draws as it wants, until Done; the rows are those of the map's plane. The shape is lent, since gcc copies one that is handed on. */
static void read_on(uint64_t *state, const terrain_shape *map, const int32_t *from, uint16_t *to)
{
    uint64_t want[TERRAIN_WANT_LENGTH];
    size_t start, length;
    for (;;) {
        check(terrain_reader_want(state, want));
        if (want[0] == TERRAIN_WANT_ROW) {
            check(terrain_band_row(map->width * map->height, *map, want[1], want[2], want[3], &start, &length));
            check(terrain_reader_feed(state, store, TERRAIN_MAX_STORE_LENGTH, from + start, length));
        } else if (want[0] == TERRAIN_WANT_DRAW) {
            check(terrain_reader_draw(state, store, TERRAIN_MAX_STORE_LENGTH, to, SIDE, &length));
            to += length;
        } else {
            return;
        }
    }
}

/* Way 0: the whole map of the level's size; way 1: the stop. */
static void run(int way, const terrain_shape *map, const terrain_shape *small, size_t level)
{
    uint64_t state[TERRAIN_STATE_LENGTH];
    check(way ? terrain_reader_set_up_at(state, *map, level, store, TERRAIN_MAX_STORE_LENGTH)
              : terrain_reader_set_up(state, *small, store, TERRAIN_MAX_STORE_LENGTH));
    if (way) read_on(state, map, plane, back[way]);
    else read_on(state, small, coarse, back[way]);
}

static terrain_shape map_by(uint32_t filter)
{
    terrain_shape map = terrain_shape_of(SIDE, SIDE, filter ? 4 : 5);
    map.filter = filter;
    return map;
}

/* The map of a level's size with the levels that are left, and its plane: the corner of the other one. */
static terrain_shape small_of(const terrain_shape *map, size_t level)
{
    terrain_shape small = *map;
    check(terrain_level_size(*map, level, &small.width, &small.height));
    small.levels = map->levels - level;
    for (size_t row = 0; row < small.height; row++) memcpy(coarse + row * small.width, plane + row * SIDE, small.width * sizeof *plane);
    return small;
}

static void compare(const terrain_shape *map, size_t level)
{
    static double times[WAYS][ROUNDS];
    terrain_shape small = small_of(map, level);
    double n = (double)(small.width * small.height);
    for (int way = 0; way < WAYS; way++) run(way, map, &small, level);
    if (memcmp(back[0], back[1], (size_t)n * sizeof **back)) fprintf(stderr, "stops: the heights differ\n"), exit(1);
    for (int round = 0; round < ROUNDS; round++)
        for (int way = 0; way < WAYS; way++) {
            double from = now();
            run(way, map, &small, level);
            times[way][round] = (now() - from) / n;
        }
    for (int way = 0; way < WAYS; way++) in_order(times[way]);
    printf("%s  stop %zu: %4zu x %-4zu  whole %5.2f (%5.2f)  stop %5.2f (%5.2f)  %4.2f times (best %4.2f); at most 1.3 is wanted\n",
           map->filter ? "9/7" : "5/3", level, small.width, small.height, median(times[0]), best(times[0]), median(times[1]), best(times[1]), median(times[1]) / median(times[0]),
           best(times[1]) / best(times[0]));
}

/* Gentle ground, so that every level's LL is a map's heights. */
static void bake(const terrain_shape *map)
{
    for (size_t i = 0; i < PLACES; i++) heights[i] = (uint16_t)(30000 + 3 * (i % SIDE) + 2 * (i / SIDE) + (i * 2654435761u >> 13) % 64);
    check(terrain_map_forward(heights, PLACES, *map, plane, PLACES, work, PLACES));
}

int main(int argc, char **argv)
{
    if (argc == 4) {
        terrain_shape map = map_by((uint32_t)atoi(argv[3])), small;
        bake(&map);
        small = small_of(&map, (size_t)atoi(argv[2]));
        run(atoi(argv[1]), &map, &small, (size_t)atoi(argv[2]));
        return 0;
    }
    printf("a stop of a map of %d x %d beside the whole reader of a map of that size, ns a height drawn, %d rounds: median (best)\n", SIDE, SIDE, ROUNDS);
    for (uint32_t filter = 0; filter < 2; filter++) {
        terrain_shape map = map_by(filter);
        bake(&map);
        for (size_t level = 1; level < map.levels; level++) compare(&map, level);
    }
    return 0;
}
