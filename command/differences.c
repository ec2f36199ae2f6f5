/* Differences, and their picture. */
#include "differences.h"

#include <math.h>
#include <stdlib.h>
#include <string.h>

#include "relief.h"

int difference(const Map *a, const Map *b, size_t i)
{
    return (int)b->heights[i] - (int)a->heights[i];
}

Differences differences_of(const Map *a, const Map *b)
{
    Differences d = {0, 0, 0, 0, 0, 0};
    for (size_t i = 0; i < a->width * a->height; i++) {
        int n = difference(a, b, i);
        if (n == 0) continue;
        if (d.count++ == 0) d.first = i;
        d.raised += n > 0;
        d.sum += (uint64_t)abs(n);
        if (abs(n) > d.most) d.largest = i, d.most = abs(n);
    }
    return d;
}

/* Red where the second map is higher, blue where it is lower; from light to full by the square root of the size, so that small differences show too. */
static void colour_of(int n, int most, uint16_t colour[3])
{
    static const int light[2][3] = {{255, 190, 70}, {110, 215, 255}}, full[2][3] = {{225, 0, 0}, {0, 30, 225}};
    double way = sqrt((double)abs(n) / most);
    for (int c = 0; c < 3; c++) colour[c] = (uint16_t)(light[n < 0][c] + (full[n < 0][c] - light[n < 0][c]) * way);
}

/* A height's square in the picture, with a rim of so many pixels. */
static void paint(Picture *picture, size_t left, size_t top, size_t side, size_t rim, const uint16_t colour[3])
{
    for (size_t y = top < rim ? 0 : top - rim; y < top + side + rim && y < picture->height; y++)
        for (size_t x = left < rim ? 0 : left - rim; x < left + side + rim && x < picture->width; x++)
            memcpy(picture->samples + 3 * (y * picture->width + x), colour, 3 * sizeof *colour);
}

/* The ground of the first map in grey, and on it what differs. A lone height of a large map would be a single pixel: each gets a rim, under the others; but
 * none where many differ. */
Picture picture_of_differences(const char *name, const Map *a, const Map *b, const Differences *d)
{
    Picture picture = relief(name, a, RELIEF_GREY);
    size_t n = a->width * a->height, k = picture.width / a->width, rims[2] = {k < 5 && d->count < n / 10 + 1 ? 2 : 0, 0};
    for (int pass = 0; pass < 2; pass++)
        for (size_t i = 0; i < n; i++) {
            uint16_t colour[3];
            int off = difference(a, b, i);
            if (off == 0) continue;
            colour_of(off, d->most, colour);
            paint(&picture, i % a->width * k, i / a->width * k, k, rims[pass], colour);
        }
    return picture;
}
