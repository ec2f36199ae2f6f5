/* Offers while band rows wait: a whole map through the writer at 5 levels, a row at a time, drawn before the next row is offered, and with every row
   that finds rows waiting offered first. The rows that went through the spare row are counted, and what one of them costs beside a row that was
   offered when none waited: the difference of the two lists, a row. Nanoseconds of processor time, both ways in turn in each round; before any
   time is taken the rows drawn are compared.
       waiting [WAY COLUMNS]    that way once, for an instruction counter */
#include "timing.h"
#include "../include/terrain.h"
#include <stdio.h>
#include <stdlib.h>
#include <string.h>

enum { ROWS = 1024, LEVELS = 5, WAYS = 2, SIZES = 3 };

static uint16_t heights[TERRAIN_MAX_WIDTH * ROWS];
static int32_t planes[WAYS][TERRAIN_MAX_WIDTH * ROWS], store[TERRAIN_MAX_STORE_LENGTH];
static uint64_t state[TERRAIN_STATE_LENGTH];
static size_t store_len, held;
static terrain_shape shape;

static void check(uint32_t answer)
{
    if (answer) exit(1);
}

static int waits(void)
{
    uint64_t row[TERRAIN_ROW_LENGTH];
    check(terrain_writer_waits(state, row));
    return row[0] > 0;
}

/* one row that waits, into its place in the plane; whether there was one */
static int draw(int32_t *plane)
{
    uint64_t row[TERRAIN_ROW_LENGTH];
    size_t start, length;
    check(terrain_writer_waits(state, row));
    if (!row[0]) return 0;
    check(terrain_band_row(shape.width * ROWS, shape, row[0], row[1], row[2], &start, &length));
    check(terrain_writer_draw(state, store, store_len, plane + start, length, row));
    return 1;
}

/* the next row, whole; while rows wait it goes into the spare row */
static void offer(size_t row)
{
    size_t taken;
    check(terrain_writer_offer(state, store, store_len, heights + row * shape.width, shape.width, &taken));
    if (taken != shape.width) exit(1);
}

static void write_map(int ahead, int32_t *plane)
{
    size_t row = 0;
    held = 0;
    check(terrain_writer_set_up(state, shape, store, store_len));
    while (row < ROWS) {
        offer(row++);
        /* the first row that waits is drawn: another row of heights comes before the others are */
        if (draw(plane) && ahead && row < ROWS && waits()) offer(row++), held++;
        while (draw(plane)) {}
    }
    check(terrain_writer_finish(state, store, store_len));
    while (draw(plane)) {}
}

static void ready(size_t width)
{
    shape = terrain_shape_of(width, ROWS, LEVELS);
    store_len = terrain_store_length(shape);
}

int main(int argc, char **argv)
{
    static const size_t widths[SIZES] = {17, 257, 1025};
    for (size_t i = 0; i < sizeof heights / sizeof *heights; i++) heights[i] = (uint16_t)(i * 2654435761u >> 13);
    if (argc == 3) {
        ready((size_t)atol(argv[2]));
        write_map(atoi(argv[1]), planes[0]);
        printf("%zu of %d rows were offered while rows waited\n", held, ROWS);
        return 0;
    }
    printf("offers while rows wait, %d rows, %d levels, ns a height (medians of %d rounds)\n", ROWS, LEVELS, ROUNDS);
    for (int size = 0; size < SIZES; size++) {
        static double times[WAYS][ROUNDS];
        ready(widths[size]);
        for (int way = 0; way < WAYS; way++) write_map(way, planes[way]);
        if (memcmp(planes[0], planes[1], shape.width * ROWS * sizeof **planes)) return fprintf(stderr, "waiting: the planes differ\n"), 1;
        for (int round = 0; round < ROUNDS; round++)
            for (int way = 0; way < WAYS; way++) {
                double from = now();
                write_map(way, planes[way]);
                times[way][round] = (now() - from) / (double)(shape.width * ROWS);
            }
        for (int way = 0; way < WAYS; way++) in_order(times[way]);
        double plain = median(times[0]), ahead = median(times[1]), part = (double)held / ROWS;
        printf("%5zu columns  none waits %6.2f  rows wait %6.2f (%.0f %% of the rows)  a row that is held %4.2f times one that is not; at most 1.3 is wanted\n",
               shape.width, plain, ahead, 100 * part, 1 + (ahead / plain - 1) / part);
    }
    return 0;
}
