/* A world in tiles, all in one file: near tiles are loaded whole, far ones by a reader that stops at a coarser level and never asks for the finer
   rows. Each tile's plane stands in the file as the library lays it out, and a band row is read where it stands.
   From the top of the repository: cc -I include examples/horizon.c target/staticlib/libterrain.a -o target/horizon && target/horizon */
#include "fractal.h"
#include <stdio.h>
#include <stdlib.h>
#include <string.h>
#include <terrain.h>

enum { TILES = 9, CUT = 64, LEVELS = 4, PLACES = CUT * CUT, CAMERA = 4 };

static uint16_t world[TILES * CUT][TILES * CUT];
static int32_t store[TERRAIN_MAX_STORE_LENGTH];

static void check(uint32_t number)
{
    if (number == 0) return;
    fprintf(stderr, "horizon: %s (%u)\n", terrain_sentence(number), (unsigned)number);
    exit(1);
}

/* A tile where it lies in the world: its coefficients are then the world's own. */
static terrain_shape tile_at(size_t row, size_t column, size_t levels)
{
    terrain_shape tile = terrain_shape_of(CUT, CUT, levels);
    tile.x = (uint16_t)(column * CUT);
    tile.y = (uint16_t)(row * CUT);
    return tile;
}

/* The tile's heights, and its plane at so many levels. */
static void bake(size_t row, size_t column, size_t levels, uint16_t *heights, int32_t *plane)
{
    static int32_t work[PLACES];
    for (size_t y = 0; y < CUT; y++) memcpy(heights + y * CUT, &world[row * CUT + y][column * CUT], CUT * sizeof *heights);
    check(terrain_map_forward(heights, PLACES, tile_at(row, column, levels), plane, PLACES, work, PLACES));
}

/* One band row from its place in the file. */
static void read_row(FILE *file, size_t tile, size_t start, size_t length, int32_t *run)
{
    if (fseek(file, (long)((tile * PLACES + start) * sizeof *run), SEEK_SET) || fread(run, sizeof *run, length, file) < length) exit(1);
}

/* A tile, whole where `stop` is 0; how many band rows were read. */
static size_t load(FILE *file, size_t row, size_t column, size_t stop, uint16_t *heights)
{
    uint64_t state[TERRAIN_STATE_LENGTH], want[TERRAIN_WANT_LENGTH];
    terrain_shape tile = tile_at(row, column, LEVELS);
    int32_t run[CUT];
    size_t rows = 0, start, length;
    check(stop ? terrain_reader_set_up_at(state, tile, stop, store, TERRAIN_MAX_STORE_LENGTH)
               : terrain_reader_set_up(state, tile, store, TERRAIN_MAX_STORE_LENGTH));
    for (;;) {
        check(terrain_reader_want(state, want));
        if (want[0] == TERRAIN_WANT_ROW) {
            check(terrain_band_row(PLACES, tile, (size_t)want[1], (size_t)want[2], (size_t)want[3], &start, &length));
            read_row(file, row * TILES + column, start, length, run);
            check(terrain_reader_feed(state, store, TERRAIN_MAX_STORE_LENGTH, run, length));
            rows++;
        } else if (want[0] == TERRAIN_WANT_DRAW) {
            check(terrain_reader_draw(state, store, TERRAIN_MAX_STORE_LENGTH, heights, CUT, &length));
            heights += length;
        } else {
            return rows;
        }
    }
}

/* Whether what was loaded is the tile, or the coarse ground of its own transform at `stop` levels, limited to 0 to 65,535. */
static int is_right(size_t row, size_t column, size_t stop, const uint16_t *loaded)
{
    static uint16_t heights[PLACES];
    static int32_t plane[PLACES];
    size_t columns, rows, right = 0;
    bake(row, column, stop ? stop : (size_t)LEVELS, heights, plane);
    if (stop == 0) return memcmp(loaded, heights, sizeof heights) == 0;
    check(terrain_level_size(tile_at(row, column, LEVELS), stop, &columns, &rows));
    for (size_t i = 0; i < columns * rows; i++) {
        int32_t value = plane[i / columns * CUT + i % columns];
        right += loaded[i] == (value < 0 ? 0 : value > 65535 ? 65535 : value);
    }
    return right == columns * rows;
}

static size_t apart(size_t a, size_t b)
{
    return a > b ? a - b : b - a;
}

int main(void)
{
    static uint16_t heights[PLACES];
    static int32_t plane[PLACES];
    size_t tiles[LEVELS + 1] = {0}, rows[LEVELS + 1] = {0}, all = 0, read = 0, right = 0;
    FILE *file = tmpfile();
    if (!file) return 1;
    for (uint32_t y = 0; y < TILES * CUT; y++)
        for (uint32_t x = 0; x < TILES * CUT; x++) world[y][x] = fractal_height(20000 + fractal_ridged(x, y, 32, 64, 7) / 2);
    for (size_t n = 0; n < TILES * TILES; n++) {
        bake(n / TILES, n % TILES, LEVELS, heights, plane);
        if (fwrite(plane, sizeof *plane, PLACES, file) < PLACES) return 1;
    }
    for (size_t n = 0; n < TILES * TILES; n++) {
        size_t down = apart(n / TILES, CAMERA), across = apart(n % TILES, CAMERA), far = down > across ? down : across, stop = far ? far - 1 : 0;
        size_t count = load(file, n / TILES, n % TILES, stop, heights);
        tiles[stop]++, rows[stop] += count, read += count;
        right += (size_t)is_right(n / TILES, n % TILES, stop, heights);
    }
    for (size_t stop = 0; stop < LEVELS; stop++) {
        printf("%s %d: %2d tiles, %4d band rows\n", stop ? "stop at level" : "whole        ", (int)stop, (int)tiles[stop], (int)rows[stop]);
        all += rows[0] / tiles[0] * tiles[stop];
    }
    printf("%d of %d tiles as they should be; read %d of %d band rows\n", (int)right, TILES * TILES, (int)read, (int)all);
    fclose(file);
    return right != TILES * TILES;
}
