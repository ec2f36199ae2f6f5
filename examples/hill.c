/* Makes examples/hill.pgm: a small landscape in whole numbers, so that every machine makes the same file. Each part shows in a band of its
   own: the dike runs down the map (HL), the terraces across it (LH), the orchard is planted crosswise (HH), and the lake is flat (nothing).
   From the top of the repository: cc examples/hill.c -o target/hill && target/hill examples/hill.pgm */
#include "fractal.h"
#include "pgm.h"

enum { WIDTH = 129, HEIGHT = 97 };
enum { SEA = 9000 };

/* 0 where a place is further than the radius from the centre, and 65,536 in it. */
static int64_t near(int64_t x, int64_t y, int64_t cx, int64_t cy, int64_t radius)
{
    int64_t far = (x - cx) * (x - cx) + (y - cy) * (y - cy), rest = radius * radius - far;
    return rest > 0 ? FRACTAL_ONE * rest / (radius * radius) : 0;
}

static int within(int64_t x, int64_t y, int64_t left, int64_t top, int64_t right, int64_t bottom)
{
    return left <= x && x < right && top <= y && y < bottom;
}

static uint16_t height_at(uint32_t x, uint32_t y)
{
    int64_t mountain = near(x, y, 34, 30, 46), lake = near(x, y, 103, 66, 24);
    int64_t h = 15000 + fractal_rolling(x, y, 64, 64, 5) / 16;
    h += mountain * (fractal_ridged(x, y, 32, 64, 11) / 3) / FRACTAL_ONE;
    h -= lake * 20000 / FRACTAL_ONE;
    if (within(x, y, 12, 66, 60, 92)) h = 14000 + ((int64_t)y - 66) / 5 * 1500; /* terraces, five rows each */
    if (within(x, y, 88, 10, 118, 40)) h += (x + y) % 2 * 1200;                  /* the orchard */
    if (within(x, y, 76, 0, 79, HEIGHT)) h = 19000;                              /* the dike */
    return fractal_height(h < SEA ? (int64_t)SEA : h);
}

int main(int argc, char **argv)
{
    static uint16_t heights[WIDTH * HEIGHT];
    for (uint32_t y = 0; y < HEIGHT; y++)
        for (uint32_t x = 0; x < WIDTH; x++) heights[y * WIDTH + x] = height_at(x, y);
    if (argc != 2 || !pgm_write(argv[1], WIDTH, HEIGHT, heights)) {
        fprintf(stderr, "usage: hill OUT.pgm\n");
        return 1;
    }
    return 0;
}
