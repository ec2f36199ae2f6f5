/* Streams of a map of any shape by the proved calls, a row at a time. */
#include "strips.h"
#include "../include/terrain.h"
#include <stdio.h>
#include <stdlib.h>
#include <string.h>

static uint64_t state[16];
static int32_t *store, *out;
static size_t store_len;

static void check(uint32_t answer)
{
    if (answer) {
        printf("a call is turned away by %u\n", (unsigned)answer);
        exit(1);
    }
}

static void ready(terrain_shape map)
{
    store_len = terrain_store_length(map);
    store = realloc(store, store_len * sizeof *store), out = realloc(out, map.width * sizeof *out);
    if (!store || !out) exit(1);
}

/* The shape is lent to it, not handed on: gcc copies a parameter through the stack, 8 bytes in and 16 out, which stalls twice a call. */
static int32_t *place(int32_t *plane, const terrain_shape *map, const uint64_t row[4])
{
    size_t start, length;
    check(terrain_band_row(map->width * map->height, *map, row[0], row[1], row[2], &start, &length));
    return plane + start;
}

static void draw_all(int32_t *plane, const terrain_shape *map)
{
    uint64_t row[4];
    for (;;) {
        check(terrain_writer_draw(state, store, store_len, out, map->width, row));
        if (!row[0]) return;
        memcpy(place(plane, map, row), out, row[3] * sizeof *out);
    }
}

void strip_write(const uint16_t *heights, terrain_shape map, int32_t *plane)
{
    ready(map);
    check(terrain_writer_set_up(state, map, store, store_len));
    for (size_t r = 0; r < map.height; r++) {
        size_t taken;
        check(terrain_writer_offer(state, store, store_len, heights + r * map.width, map.width, &taken));
        draw_all(plane, &map);
    }
    check(terrain_writer_finish(state, store, store_len));
    draw_all(plane, &map);
}

void strip_read(const int32_t *plane, terrain_shape map, uint16_t *heights)
{
    uint64_t want[5];
    size_t drawn, r = 0;
    ready(map);
    check(terrain_reader_set_up(state, map, store, store_len));
    for (;;) {
        check(terrain_reader_want(state, want));
        if (want[0] == 0)
            check(terrain_reader_feed(state, store, store_len, place((int32_t *)plane, &map, want + 1), want[4]));
        else if (want[0] == 1)
            check(terrain_reader_draw(state, store, store_len, heights + map.width * r++, map.width, &drawn));
        else
            return;
    }
}
