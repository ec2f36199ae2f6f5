/* An editor: strokes on a landscape, the plane kept through all of them by terrain_map_mend, and a bake at the end that agrees.
   From the top of the repository: cc -Iinclude examples/strokes.c target/staticlib/libterrain.a -o target/strokes && target/strokes */
#include "fractal.h"
#include "terrain.h"
#include <stdio.h>
#include <string.h>

enum { WIDTH = 513, HEIGHT = 257, LEVELS = 5, PLACES = WIDTH * HEIGHT };

static uint16_t heights[PLACES];
static int32_t plane[PLACES], baked[PLACES], work[PLACES];

/* A round hill, cut to the map: the heights change in the rectangle alone, which is what the call is told. */
static terrain_rectangle paint(size_t x, size_t y, size_t radius, uint16_t rise)
{
    terrain_rectangle r;
    r.left = x > radius ? x - radius : 0;
    r.top = y > radius ? y - radius : 0;
    r.width = (x + radius + 1 < WIDTH ? x + radius + 1 : WIDTH) - r.left;
    r.height = (y + radius + 1 < HEIGHT ? y + radius + 1 : HEIGHT) - r.top;
    for (size_t row = r.top; row < r.top + r.height; row++)
        for (size_t column = r.left; column < r.left + r.width; column++) {
            size_t dx = column > x ? column - x : x - column, dy = row > y ? row - y : y - row;
            if (dx * dx + dy * dy <= radius * radius) heights[row * WIDTH + column] += rise;
        }
    return r;
}

int main(void)
{
    terrain_shape shape = terrain_shape_of(WIDTH, HEIGHT, LEVELS);
    for (uint32_t y = 0; y < HEIGHT; y++)
        for (uint32_t x = 0; x < WIDTH; x++) heights[y * WIDTH + x] = fractal_height(15000 + fractal_rolling(x, y, 64, 64, 5) / 16);
    uint32_t answer = terrain_map_forward(heights, PLACES, shape, plane, PLACES, work, PLACES);
    for (size_t stroke = 0; answer == 0 && stroke < 100; stroke++) {
        terrain_rectangle r = paint(stroke * 131 % WIDTH, stroke * 53 % HEIGHT, stroke % 24, 37);
        answer = terrain_map_mend(heights, PLACES, WIDTH, HEIGHT, LEVELS, r, plane, PLACES, work, PLACES);
    }
    if (answer == 0) answer = terrain_map_forward(heights, PLACES, shape, baked, PLACES, work, PLACES);
    if (answer != 0) {
        fprintf(stderr, "refused: %s\n", terrain_sentence(answer));
        return 1;
    }
    puts(memcmp(plane, baked, sizeof plane) == 0 ? "100 strokes: the plane is the bake's" : "the planes differ");
    return 0;
}
