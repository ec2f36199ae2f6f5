/* A plane saved as a ground file, beside plain C that was written from docs/FORMAT.md: nanoseconds of processor time a height at 1,025 x 1,025 and 5 levels,
   both ways in turn in each round. The C is told the order of the rows, which a reader gave before any time is taken; the files are compared first.
       saving [WAY]    that way once, for an instruction counter */
#include "timing.h"
#include "../include/terrain.h"
#include <stdio.h>
#include <stdlib.h>
#include <string.h>

enum { SIDE = 1025, LEVELS = 5, PLACES = SIDE * SIDE, WAYS = 2, AREA = 1 << 16 };

static uint16_t heights[PLACES];
static int32_t plane[PLACES], work[PLACES];
static uint8_t file[WAYS][4 * PLACES];
static struct { size_t start, length; } rows[4 * SIDE];
static size_t row_count;

/* Rough ground: a walk along each row. */
static void make_plane(void)
{
    uint32_t seed = 1;
    int32_t h = 20000;
    for (size_t i = 0; i < PLACES; i++) {
        h += (int32_t)((seed = seed * 1664525u + 1013904223u) >> 8) % 201 - 100;
        if (i % SIDE == 0 || h < 0 || h > 65535) h = 20000;
        heights[i] = (uint16_t)h;
    }
    if (terrain_map_forward(heights, PLACES, terrain_shape_of(SIDE, SIDE, LEVELS), plane, PLACES, work, PLACES)) exit(1);
}

static void find_order(void)
{
    static int32_t store[TERRAIN_MAX_STORE_LENGTH];
    uint64_t state[16], want[5];
    size_t drawn;
    terrain_shape shape = terrain_shape_of(SIDE, SIDE, LEVELS);
    if (terrain_reader_set_up(state, shape, store, TERRAIN_MAX_STORE_LENGTH)) exit(1);
    for (;;) {
        if (terrain_reader_want(state, want)) exit(1);
        if (want[0] == TERRAIN_WANT_DONE) return;
        if (want[0] == TERRAIN_WANT_DRAW) {
            if (terrain_reader_draw(state, store, TERRAIN_MAX_STORE_LENGTH, heights, SIDE, &drawn)) exit(1);
            continue;
        }
        if (terrain_band_row(PLACES, shape, want[1], want[2], want[3], &rows[row_count].start, &rows[row_count].length)) exit(1);
        if (terrain_reader_feed(state, store, TERRAIN_MAX_STORE_LENGTH, plane + rows[row_count].start, rows[row_count].length)) exit(1);
        row_count++;
    }
}

/* ---- plain C */
static const uint8_t widths[16] = {0, 1, 2, 3, 4, 5, 6, 7, 8, 9, 10, 11, 13, 16, 20, 28};
static uint8_t code_of[33];

static uint8_t *put_part(uint8_t *to, const uint32_t *x, size_t n, unsigned width)
{
    uint64_t bits = 0;
    unsigned count = 0;
    for (size_t i = 0; i < n; i++) {
        bits |= (uint64_t)x[i] << count;
        for (count += width; count >= 8; count -= 8, bits >>= 8) *to++ = (uint8_t)bits;
    }
    if (count) *to++ = (uint8_t)bits;
    return to;
}

static uint8_t *put_row(uint8_t *to, const int32_t *v, size_t n)
{
    for (size_t g = 0; g < n; g += 16) {
        size_t count = n - g < 16 ? n - g : 16, first = count < 8 ? count : 8;
        uint32_t x[16], low = 0, high = 0;
        for (size_t i = 0; i < count; i++) x[i] = ((uint32_t)v[g + i] << 1) ^ (uint32_t)(v[g + i] >> 31);
        for (size_t i = 0; i < first; i++) low |= x[i];
        for (size_t i = first; i < count; i++) high |= x[i];
        unsigned a = code_of[low ? 32 - __builtin_clz(low) : 0], b = code_of[high ? 32 - __builtin_clz(high) : 0];
        *to++ = (uint8_t)(a + 16 * b);
        to = put_part(put_part(to, x, first, widths[a]), x + first, count - first, widths[b]);
    }
    return to;
}

static uint32_t sum_of(const uint8_t *b, size_t n)
{
    uint64_t sum = 0;
    size_t i = 0;
    for (; i + 4 <= n; i += 4) sum = (sum << 32 | (uint32_t)b[i] << 24 | (uint32_t)b[i + 1] << 16 | (uint32_t)b[i + 2] << 8 | b[i + 3]) % 4293501227u;
    for (; i < n; i++) sum = (sum << 8 | b[i]) % 4293501227u;
    return (uint32_t)sum;
}

__attribute__((noinline)) static size_t plain(uint8_t *to)
{
    static const uint8_t head[24] = {0x89, 0x47, 0x4e, 0x44, 0x0d,       0x0a,       0x1a,       0x0a,       1, 0, LEVELS, 1,
                                     0,    0,    0,    0,    SIDE % 256, SIDE / 256, SIDE % 256, SIDE / 256};
    uint8_t *end = to + sizeof head;
    uint32_t sum;
    memcpy(to, head, sizeof head);
    for (size_t i = 0; i < row_count; i++) end = put_row(end, plane + rows[i].start, rows[i].length);
    sum = sum_of(to, (size_t)(end - to));
    for (int i = 0; i < 4; i++) *end++ = (uint8_t)(sum >> 8 * i);
    return (size_t)(end - to);
}

static size_t proved(uint8_t *to)
{
    uint64_t saver[TERRAIN_SAVER_LENGTH];
    size_t written = 0, total = 0;
    if (terrain_save_set_up(saver, terrain_shape_of(SIDE, SIDE, LEVELS), 1)) exit(1);
    do {
        if (terrain_save(saver, plane, PLACES, to + total, AREA, &written)) exit(1);
        total += written;
    } while (written > 0);
    return total;
}

static size_t run(int way)
{
    return way ? plain(file[way]) : proved(file[way]);
}

int main(int argc, char **argv)
{
    static const char *const names[WAYS] = {"proved", "plain C"};
    static double times[WAYS][ROUNDS];
    for (int bits = 0; bits <= 28; bits++)
        while (widths[code_of[bits]] < bits) code_of[bits]++;
    make_plane();
    find_order();
    if (argc == 2) return run(atoi(argv[1])) == 0;
    size_t bytes = run(0);
    if (run(1) != bytes || memcmp(file[0], file[1], bytes)) return printf("the files differ\n"), 1;
    for (int round = 0; round < ROUNDS; round++)
        for (int way = 0; way < WAYS; way++) {
            double from = now();
            run(way);
            times[way][round] = (now() - from) / PLACES;
        }
    printf("a plane saved, %d x %d, %d levels, %zu bytes, ns a height, %d rounds: median (best), and the proved call's part of it; at most 2 is wanted\n", SIDE,
           SIDE, LEVELS, bytes, ROUNDS);
    for (int way = 0; way < WAYS; way++) in_order(times[way]);
    for (int way = 0; way < WAYS; way++)
        printf("%-8s %6.3f (%6.3f)   %4.2f\n", names[way], median(times[way]), best(times[way]), median(times[0]) / median(times[way]));
    return 0;
}
