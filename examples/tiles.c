/* A world cut into tiles on one grid. Each tile is transformed by itself, at the coordinates where it lies in the world: its coefficients are
   then the world's own, but for those so near a cut that they read heights beyond it.
   From the top of the repository: cc -I include examples/tiles.c target/staticlib/libterrain.a -o target/tiles && target/tiles */
#include "fractal.h"
#include <stdio.h>
#include <stdlib.h>
#include <terrain.h>

enum { WIDTH = 150, HEIGHT = 110, LEVELS = 3, CUT = 37 }; /* tiles of 37 × 37 heights, those at the right and at the bottom smaller */

static uint16_t world[WIDTH * HEIGHT];
static int32_t world_plane[WIDTH * HEIGHT];

static void check(uint32_t number)
{
    if (number == 0) return;
    fprintf(stderr, "tiles: %s (%u)\n", terrain_sentence(number), (unsigned)number);
    exit(1);
}

/* The number in its band, at level `level`, of the first place of a side that starts at that coordinate. */
static size_t first_in_band(size_t start, size_t level, int high)
{
    for (size_t k = 1; k < level; k++) start = (start + 1) / 2;
    return high ? start / 2 : (start + 1) / 2;
}

/* Whether value n of a band of the world reads no height beyond a cut, along a side of the tile that has the coordinates from `start` on. High
   value n of a level reads samples 2n to 2n + 2 of it, low value n samples 2n - 2 to 2n + 2, and a level's samples are the low values of the
   one before it. The world's own ends are no cuts: there it is mirrored, and so is the tile. */
static int inner(size_t n, size_t level, int high, size_t start, size_t length, size_t world_length)
{
    long first = (long)n, last = (long)n;
    for (size_t k = level; k > 0; k--) {
        first = high ? 2 * first : 2 * first - 2;
        last = 2 * last + 2;
        high = 0;
    }
    return (start == 0 || first >= (long)start) && (start + length == world_length || last < (long)(start + length));
}

/* How many coefficients of a tile are the world's, of those within and of those at the edge: same[inner]. */
static void compare(const int32_t *plane, terrain_shape tile, size_t same[2], size_t all[2])
{
    size_t x = tile.x, y = tile.y;
    terrain_shape whole = terrain_shape_of(WIDTH, HEIGHT, LEVELS);
    for (size_t level = 1; level <= LEVELS; level++)
        for (size_t band = level == LEVELS ? TERRAIN_LL : TERRAIN_HL; band <= TERRAIN_HH; band++) {
            size_t right = first_in_band(x, level, band & 1), down = first_in_band(y, level, band >= TERRAIN_LH);
            size_t start, length, there, long_there;
            for (size_t row = 0; terrain_band_row(tile.width * tile.height, tile, level, band, row, &start, &length) == 0; row++) {
                check(terrain_band_row(WIDTH * HEIGHT, whole, level, band, down + row, &there, &long_there));
                for (size_t i = 0; i < length; i++) {
                    int within = inner(right + i, level, band & 1, x, tile.width, WIDTH) &&
                                 inner(down + row, level, band >= TERRAIN_LH, y, tile.height, HEIGHT);
                    all[within]++;
                    same[within] += plane[start + i] == world_plane[there + right + i];
                }
            }
        }
}

/* How many places of a side a tile has that starts there. */
static size_t side_of(size_t start, size_t world_length)
{
    return start + CUT < world_length ? (size_t)CUT : world_length - start;
}

/* The tile of the world at (x, y), there and back. */
static void one_tile(size_t x, size_t y, size_t same[2], size_t all[2])
{
    static uint16_t heights[CUT * CUT], again[CUT * CUT];
    static int32_t plane[CUT * CUT], work[CUT * CUT];
    terrain_shape tile = terrain_shape_of(side_of(x, WIDTH), side_of(y, HEIGHT), LEVELS);
    size_t n = tile.width * tile.height;
    tile.x = (uint16_t)x;
    tile.y = (uint16_t)y;
    for (size_t i = 0; i < n; i++) heights[i] = world[(y + i / tile.width) * WIDTH + x + i % tile.width];
    check(terrain_map_forward(heights, n, tile, plane, n, work, n));
    check(terrain_map_backward(plane, n, tile, again, n, work, n));
    for (size_t i = 0; i < n; i++)
        if (again[i] != heights[i]) exit(1);
    compare(plane, tile, same, all);
}

int main(void)
{
    static int32_t work[WIDTH * HEIGHT];
    size_t same[2] = {0, 0}, all[2] = {0, 0};
    for (uint32_t y = 0; y < HEIGHT; y++)
        for (uint32_t x = 0; x < WIDTH; x++) world[y * WIDTH + x] = fractal_height(20000 + fractal_ridged(x, y, 32, 64, 7) / 2);
    check(terrain_map_forward(world, WIDTH * HEIGHT, terrain_shape_of(WIDTH, HEIGHT, LEVELS), world_plane, WIDTH * HEIGHT, work, WIDTH * HEIGHT));
    for (size_t y = 0; y < HEIGHT; y += CUT)
        for (size_t x = 0; x < WIDTH; x += CUT) one_tile(x, y, same, all);
    printf("within the tiles: %zu of %zu coefficients are the world's own\n", same[1], all[1]);
    printf("at their edges: %zu of %zu\n", same[0], all[0]);
    return same[1] == all[1] ? 0 : 1;
}
