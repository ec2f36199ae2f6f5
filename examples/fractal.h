/* Landscapes in whole numbers, so that every machine makes the same heights: noise between the points of a lattice, added up over finer and
 * finer lattices. For the examples and tools; C and C++. */
#ifndef FRACTAL_H
#define FRACTAL_H

#include <stdint.h>

enum { FRACTAL_ONE = 65536 };

/* 0 to 65,535, by the numbers alone. */
static inline int64_t fractal_corner(uint32_t x, uint32_t y, uint32_t seed)
{
    uint32_t h = x * 0x9e3779b1u ^ y * 0x85ebca77u ^ seed * 0xc2b2ae3du;
    h = (h ^ h >> 15) * 0x2c1b3c6du;
    h = (h ^ h >> 12) * 0x297a2d39u;
    return (h ^ h >> 15) & 65535;
}

/* 0 to 1 (65,536 parts) on the way through a cell, flat at both ends. */
static inline int64_t fractal_way(uint32_t place, uint32_t cell)
{
    int64_t t = (int64_t)place * FRACTAL_ONE / cell;
    return t * t / FRACTAL_ONE * (3 * FRACTAL_ONE - 2 * t) / FRACTAL_ONE;
}

static inline int64_t fractal_between(int64_t a, int64_t b, int64_t way)
{
    return a + (b - a) * way / FRACTAL_ONE;
}

/* Noise on a lattice of that cell: -32,768 to 32,767. */
static inline int64_t fractal_noise(uint32_t x, uint32_t y, uint32_t cell, uint32_t seed)
{
    uint32_t column = x / cell, row = y / cell;
    int64_t across = fractal_way(x % cell, cell), down = fractal_way(y % cell, cell);
    int64_t above = fractal_between(fractal_corner(column, row, seed), fractal_corner(column + 1, row, seed), across);
    int64_t below = fractal_between(fractal_corner(column, row + 1, seed), fractal_corner(column + 1, row + 1, seed), across);
    return fractal_between(above, below, down) - 32768;
}

/* From a coarse lattice to cells of 1, each with `gain` 256ths of the size before: rolling ground, about -1 to 1 (65,536 parts). */
static inline int64_t fractal_rolling(uint32_t x, uint32_t y, uint32_t cell, int64_t gain, uint32_t seed)
{
    int64_t sum = 0, size = 256 * 256;
    for (; cell > 0 && size > 0; cell /= 2, size = size * gain / 256) sum += fractal_noise(x, y, cell, seed + cell) * size / (256 * 256);
    return sum;
}

/* The same with a crest wherever the noise of a lattice changes its sign: mountains, 0 to about 2 (65,536 parts). */
static inline int64_t fractal_ridged(uint32_t x, uint32_t y, uint32_t cell, int64_t gain, uint32_t seed)
{
    int64_t sum = 0, size = 256 * 256;
    for (; cell > 0 && size > 0; cell /= 2, size = size * gain / 256) {
        int64_t noise = fractal_noise(x, y, cell, seed + cell), crest = 32768 - (noise < 0 ? -noise : noise);
        sum += crest * crest / 32768 * 2 * size / (256 * 256);
    }
    return sum;
}

static inline uint16_t fractal_height(int64_t value)
{
    return (uint16_t)(value < 0 ? 0 : value > 65535 ? 65535 : value);
}

#endif
