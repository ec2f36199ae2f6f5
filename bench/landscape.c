/* A landscape to measure sizes on (bench/sizes): `mountains` or `plains`, SIDE x SIDE heights, the same on every machine. */
#include "../examples/fractal.h"
#include "../examples/pgm.h"

/* Crests and valleys over most of the range, rough down to the last place. */
static uint16_t mountains(uint32_t x, uint32_t y)
{
    return fractal_height(fractal_ridged(x, y, 512, 118, 3) * 2 / 5 + fractal_rolling(x, y, 1024, 112, 4) / 4 + 6000);
}

/* Wide, smooth ground with a river bed, over a sixth of the range. */
static uint16_t plains(uint32_t x, uint32_t y)
{
    int64_t ground = fractal_rolling(x, y, 1024, 88, 7) / 8, bed = fractal_noise(x, y, 512, 8);
    if (bed < 0) bed = -bed;
    return fractal_height(16000 + ground - (bed < 3000 ? (3000 - bed) / 2 : 0));
}

int main(int argc, char **argv)
{
    long side = argc == 4 ? atol(argv[2]) : 0;
    uint16_t *heights = side > 0 && side <= 2049 ? (uint16_t *)malloc((size_t)(side * side) * sizeof *heights) : NULL;
    if (!heights || (strcmp(argv[1], "mountains") != 0 && strcmp(argv[1], "plains") != 0)) {
        fprintf(stderr, "usage: landscape mountains|plains SIDE OUT.pgm\n");
        return 2;
    }
    for (uint32_t y = 0; y < side; y++)
        for (uint32_t x = 0; x < side; x++) heights[y * side + x] = (argv[1][0] == 'm' ? mountains : plains)(x, y);
    if (!pgm_write(argv[3], (size_t)side, (size_t)side, heights)) {
        fprintf(stderr, "%s: it cannot be written\n", argv[3]);
        return 1;
    }
    free(heights);
    return 0;
}
