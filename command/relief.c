/* Hill shading: how much light falls on the ground, by its slope at each pixel. */
#include "relief.h"

#include <math.h>

#include "picture.h"
#include "progress.h"

enum { SIDE = 640, MOST_PIXELS = 16 };

/* The ground at a point between heights. */
typedef struct {
    double height, across, down; /* and its slopes, to the right and downward */
} Ground;

static double height_at(const Map *map, long x, long y)
{
    long right = (long)map->width - 1, bottom = (long)map->height - 1;
    x = x < 0 ? 0 : x > right ? right : x;
    y = y < 0 ? 0 : y > bottom ? bottom : y;
    return map->heights[(size_t)y * map->width + (size_t)x];
}

/* Slopes by Horn's weights: the neighbours on either side, the near ones twice. */
static Ground ground_at(const Map *map, long x, long y)
{
    Ground g = {height_at(map, x, y), 0, 0};
    for (long i = -1; i <= 1; i++) {
        double weight = i == 0 ? 0.25 : 0.125;
        g.across += weight * (height_at(map, x + 1, y + i) - height_at(map, x - 1, y + i));
        g.down += weight * (height_at(map, x + i, y + 1) - height_at(map, x + i, y - 1));
    }
    return g;
}

static Ground between(Ground a, Ground b, double way)
{
    Ground g = {a.height + (b.height - a.height) * way, a.across + (b.across - a.across) * way, a.down + (b.down - a.down) * way};
    return g;
}

/* Where a pixel of a picture with k pixels a height lies between four heights. */
static Ground ground_between(const Map *map, size_t px, size_t py, size_t k)
{
    double x = ((double)px + 0.5) / (double)k - 0.5, y = ((double)py + 0.5) / (double)k - 0.5;
    long left = (long)floor(x), top = (long)floor(y);
    if (k == 1) return ground_at(map, (long)px, (long)py);
    return between(between(ground_at(map, left, top), ground_at(map, left + 1, top), x - (double)left),
                   between(ground_at(map, left, top + 1), ground_at(map, left + 1, top + 1), x - (double)left), y - (double)top);
}

/* Heights have no unit, so the ground is stretched until its mean slope is a gentle one. */
static double stretch_of(const Map *map)
{
    double sum = 0;
    for (size_t y = 0; y < map->height; y++) {
        for (size_t x = 0; x < map->width; x++) {
            Ground g = ground_at(map, (long)x, (long)y);
            sum += sqrt(g.across * g.across + g.down * g.down);
        }
        progress(y, 2 * map->height);
    }
    sum /= (double)map->width * (double)map->height;
    return sum > 0 ? 0.5 / sum : 0;
}

/* 0 to 1: the cosine between the ground and a light from the upper left, half way up. */
static double light_on(Ground g, double stretch)
{
    double across = g.across * stretch, down = g.down * stretch;
    double cosine = (across * 0.5 + down * 0.5 + 0.70710678) / sqrt(across * across + down * down + 1);
    return cosine < 0 ? 0 : cosine;
}

/* A tint by how high it is, 0 to 1: from green lowland over sand and rock to snow. */
static void tint_of(double high, double tint[3])
{
    static const double stops[][4] = {{0, 0.33, 0.47, 0.38}, {0.3, 0.58, 0.64, 0.42}, {0.55, 0.80, 0.71, 0.50}, {0.8, 0.66, 0.56, 0.48}, {1, 0.97, 0.97, 0.98}};
    size_t i = 0;
    while (i < 3 && high > stops[i + 1][0]) i++;
    double way = (high - stops[i][0]) / (stops[i + 1][0] - stops[i][0]);
    for (int c = 0; c < 3; c++) tint[c] = stops[i][c + 1] + (stops[i + 1][c + 1] - stops[i][c + 1]) * way;
}

static void extremes(const Map *map, double *lowest, double *highest)
{
    *lowest = *highest = map->heights[0];
    for (size_t i = 0; i < map->width * map->height; i++) {
        if (map->heights[i] < *lowest) *lowest = map->heights[i];
        if (map->heights[i] > *highest) *highest = map->heights[i];
    }
}

static void shade_pixel(uint16_t *pixel, double light, double high, int tint)
{
    double colour[3] = {0.62, 0.62, 0.62};
    if (tint == RELIEF_COLOUR) tint_of(high, colour);
    for (int c = 0; c < 3; c++) {
        double level = 255 * colour[c] * (0.25 + 1.06 * light);
        pixel[c] = (uint16_t)(level > 255 ? 255 : level);
    }
}

Picture relief(const char *name, const Map *map, int tint)
{
    size_t k = pixels_of(map->width, map->height, SIDE, MOST_PIXELS);
    Picture picture = picture_of(name, map->width * k, map->height * k, 3, 8);
    double stretch, lowest, highest;
    progress_begin("shading");
    stretch = stretch_of(map);
    extremes(map, &lowest, &highest);
    for (size_t y = 0; y < picture.height; y++) {
        for (size_t x = 0; x < picture.width; x++) {
            Ground g = ground_between(map, x, y, k);
            double high = highest > lowest ? (g.height - lowest) / (highest - lowest) : 0.5;
            shade_pixel(picture.samples + 3 * (y * picture.width + x), light_on(g, stretch), high, tint);
        }
        progress(picture.height + y, 2 * picture.height);
    }
    progress_end();
    return picture;
}
