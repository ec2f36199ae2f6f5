/* One way of a map, once, for callgrind to count (bench/count): `count WAY WIDTH HEIGHT`. What is counted is what `counted` calls and nothing else.
   A stream goes row by row into a plane or from one; where each row stands was found before, so that nothing is counted but the stream's own calls. */
#include "../include/terrain.h"
#include "maps.h"
#include <stdio.h>
#include <stdlib.h>
#include <string.h>

static size_t W, H, n;
static uint16_t *heights, *back;
static int32_t *plane, *other, *packed, *work, *store;
static size_t store_len, *starts, rows;
static uint64_t state[16], *names;
static size_t names_len;
static terrain_shape shape;

static void check(uint32_t answer)
{
    if (answer) {
        fprintf(stderr, "count: a call is turned away by %u\n", (unsigned)answer);
        exit(1);
    }
}

static void *area(size_t bytes)
{
    void *made = calloc(bytes, 1);
    if (!made) exit(1);
    return made;
}

static void draw_all(size_t *k)
{
    uint64_t row[4];
    for (;;) {
        size_t start = *k < rows ? starts[*k] : 0;
        check(terrain_writer_draw(state, store, store_len, other + start, n - start, row));
        if (!row[0]) return;
        ++*k;
    }
}

static void writer(void)
{
    size_t k = 0, taken;
    check(terrain_writer_set_up(state, shape, store, store_len));
    for (size_t r = 0; r < H; r++) {
        check(terrain_writer_offer(state, store, store_len, heights + r * W, W, &taken));
        draw_all(&k);
    }
    check(terrain_writer_finish(state, store, store_len));
    draw_all(&k);
}

/* many rows a call: heights of 64 rows, and what they make one after the other */
static size_t run_on(size_t taken, size_t count, size_t *put)
{
    uint64_t counts[3];
    check(terrain_writer_run(state, store, store_len, heights + taken, count, packed + *put, n - *put, names + 4 * rows, names_len - 4 * rows, counts));
    rows += counts[1], *put += counts[2];
    return counts[0];
}

static void writer_run(void)
{
    size_t taken = 0, put = 0;
    rows = 0;
    check(terrain_writer_set_up(state, shape, store, store_len));
    while (taken < n) taken += run_on(taken, n - taken < 64 * W ? n - taken : 64 * W, &put);
    check(terrain_writer_finish(state, store, store_len));
    run_on(taken, 0, &put);
}

/* each row to its place in the plane, by its name */
static void spread(void)
{
    size_t start, length, put = 0;
    for (size_t k = 0; k < rows; k++, put += length) {
        check(terrain_band_row(n, shape, names[4 * k], names[4 * k + 1], names[4 * k + 2], &start, &length));
        memcpy(other + start, packed + put, length * sizeof *other);
    }
}

static void reader(void)
{
    uint64_t want[5];
    size_t k = 0, r = 0, drawn;
    check(terrain_reader_set_up(state, shape, store, store_len));
    for (;;) {
        check(terrain_reader_want(state, want));
        if (want[0] == 0)
            check(terrain_reader_feed(state, store, store_len, plane + starts[k++], want[4]));
        else if (want[0] == 1)
            check(terrain_reader_draw(state, store, store_len, back + W * r++, W, &drawn));
        else
            return;
    }
}

/* many rows a call: the numbers of 64 rows, one row after the other as they are wanted */
static void reader_run(void)
{
    uint64_t counts[2];
    size_t used = 0, r = 0;
    check(terrain_reader_set_up(state, shape, store, store_len));
    while (r < H) {
        size_t count = n - used < 64 * W ? n - used : 64 * W;
        check(terrain_reader_run(state, store, store_len, packed + used, count, back + W * r, n - W * r, counts));
        used += counts[0], r += counts[1];
    }
}

/* ---- the places of the rows, in the order of a stream */

static void found(const uint64_t row[3])
{
    size_t start, length;
    check(terrain_band_row(n, shape, row[0], row[1], row[2], &start, &length));
    starts[rows++] = start;
}

static void find_drawn(void)
{
    uint64_t row[4];
    for (;;) {
        check(terrain_writer_draw(state, store, store_len, other, n, row));
        if (!row[0]) return;
        found(row);
    }
}

static void find_written(void)
{
    size_t taken;
    check(terrain_writer_set_up(state, shape, store, store_len));
    for (size_t r = 0; r < H; r++) {
        check(terrain_writer_offer(state, store, store_len, heights + r * W, W, &taken));
        find_drawn();
    }
    check(terrain_writer_finish(state, store, store_len));
    find_drawn();
}

static void find_read(void)
{
    uint64_t want[5];
    size_t drawn, put = 0;
    check(terrain_reader_set_up(state, shape, store, store_len));
    for (;;) {
        check(terrain_reader_want(state, want));
        if (want[0] == 0) {
            found(want + 1);
            memcpy(packed + put, plane + starts[rows - 1], want[4] * sizeof *packed), put += want[4];
            check(terrain_reader_feed(state, store, store_len, plane + starts[rows - 1], want[4]));
        } else if (want[0] == 1)
            check(terrain_reader_draw(state, store, store_len, back, W, &drawn));
        else
            return;
    }
}

/* ---- the ways */

static void nothing(void) {}
static void forward(void) { proved_forward(heights, W, H, other, work); }
static void backward(void) { proved_backward(plane, W, H, back, work); }
static void plain_c_forward(void) { fused_forward(heights, W, H, other, work); }
static void plain_c_backward(void) { fused_backward(plane, W, H, back, work); }

static const struct {
    const char *name;
    void (*ready)(void), (*run)(void);
    int makes_heights;
} ways[] = {
    { "forward", nothing, forward, 0 },          { "backward", nothing, backward, 1 },
    { "fused-forward", nothing, plain_c_forward, 0 }, { "fused-backward", nothing, plain_c_backward, 1 },
    { "writer", find_written, writer, 0 },       { "reader", find_read, reader, 1 },
    { "writer-run", nothing, writer_run, 0 },    { "reader-run", find_read, reader_run, 1 },
};

__attribute__((noinline)) void counted(void (*run)(void))
{
    run();
    __asm__ volatile("" ::: "memory");
}

static void prepare(void)
{
    uint32_t seed = 1;
    n = W * H, shape = shape_of(W, H), store_len = terrain_store_length(shape);
    heights = area(n * sizeof *heights), back = area(n * sizeof *back);
    plane = area(n * sizeof *plane), other = area(n * sizeof *other), packed = area(n * sizeof *packed), work = area(n * sizeof *work);
    names_len = 4 * (8 * H + 64), names = area(names_len * sizeof *names);
    store = area(store_len * sizeof *store), starts = area((8 * H + 64) * sizeof *starts);
    for (size_t i = 0; i < n; i++) heights[i] = (uint16_t)((seed = seed * 1664525u + 1013904223u) >> 16);
    proved_forward(heights, W, H, plane, work);
}

int main(int argc, char **argv)
{
    if (argc != 4) return 2;
    W = (size_t)atoi(argv[2]), H = (size_t)atoi(argv[3]);
    prepare();
    for (size_t k = 0; k < sizeof ways / sizeof *ways; k++) {
        if (strcmp(argv[1], ways[k].name)) continue;
        ways[k].ready();
        memset(other, 0, n * sizeof *other), memset(back, 0, n * sizeof *back);
        ways[k].run(); /* once before: the fused C takes its areas then */
        counted(ways[k].run);
        if (ways[k].run == writer_run) spread();
        int differs = ways[k].makes_heights ? memcmp(heights, back, n * sizeof *back) : memcmp(plane, other, n * sizeof *plane);
        if (differs) fprintf(stderr, "count: %s: the results differ\n", argv[1]);
        return differs != 0;
    }
    return 2;
}
