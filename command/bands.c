/* terrain bands: the plane of a map's coefficients as a picture, each band in its place, with its border and its name: PNG or PGM, by the ending of its name.
 *
 * LL is drawn from its lowest value, black, to its highest, white. In the other bands 0 is middle grey and a coefficient is lighter or darker by its size,
 * on one scale for the bands of a level: black and white are the size that one coefficient in a hundred passes, so that single spikes do not wash out the
 * rest, and ridges stand out of rough ground. What the scales are is said. */
#include <stdlib.h>
#include <terrain.h>

#include "canvas.h"
#include "commands.h"
#include "end.h"
#include "picture.h"
#include "progress.h"

enum { SIDE = 1024, MOST_PIXELS = 32 };

typedef struct {
    const int32_t *numbers;
    size_t width, height, levels;
    size_t pixels; /* a number's side in the picture */
} Plane;

/* How many numbers are painted, and where what is painted is told. */
static uint64_t painted;
static FILE *report;

/* The coefficients of a band row, by what `terrain_band_row` says of it; whether there is one. */
static int next_row(const Plane *p, size_t level, size_t band, size_t row, size_t *start, size_t *length)
{
    return terrain_band_row(p->width * p->height, terrain_shape_of(p->width, p->height, p->levels), level, band, row, start, length) == 0;
}

static int64_t size_of_number(int64_t n)
{
    return n < 0 ? -n : n;
}

/* How many coefficients of a band are larger than that, by size. */
static uint64_t larger(const Plane *p, size_t level, size_t band, int64_t than)
{
    size_t start, length;
    uint64_t count = 0;
    end_if_asked();
    for (size_t row = 0; next_row(p, level, band, row, &start, &length); row++)
        for (size_t i = start; i < start + length; i++) count += size_of_number(p->numbers[i]) > than;
    return count;
}

static uint64_t larger_in_level(const Plane *p, size_t level, int64_t than)
{
    uint64_t count = 0;
    for (size_t band = TERRAIN_HL; band <= TERRAIN_HH; band++) count += larger(p, level, band, than);
    return count;
}

/* The least size that so many coefficients of a level pass at most. */
static int64_t size_passed_by(const Plane *p, size_t level, uint64_t most)
{
    int64_t below = -1, enough = INT32_MAX;
    while (enough - below > 1) {
        int64_t half = (below + enough) / 2;
        if (larger_in_level(p, level, half) <= most) enough = half;
        else below = half;
    }
    return enough;
}

static uint16_t detail_grey(int64_t n, int64_t end)
{
    int64_t size = size_of_number(n), step = end == 0 ? 0 : (GREY - 1) * (size < end ? size : end) / end;
    return (uint16_t)(n < 0 ? GREY - step : GREY + step);
}

static void paint_number(Canvas *canvas, const Plane *p, size_t i, uint16_t grey)
{
    canvas_box(canvas, i % p->width * p->pixels, i / p->width * p->pixels, p->pixels, p->pixels, grey);
}

static void paint_detail(Canvas *canvas, const Plane *p, size_t level, size_t band, int64_t end)
{
    size_t start, length;
    for (size_t row = 0; next_row(p, level, band, row, &start, &length); row++) {
        for (size_t i = start; i < start + length; i++) paint_number(canvas, p, i, detail_grey(p->numbers[i], end));
        progress(painted += length, p->width * p->height);
    }
}

/* The bands of a level on their scale, which is told. */
static void paint_level(Canvas *canvas, const Plane *p, size_t level)
{
    uint64_t all = larger_in_level(p, level, -1);
    int64_t end = size_passed_by(p, level, all / 100);
    if (end == 0) end = size_passed_by(p, level, 0); /* nearly all are 0: those that are not shall show */
    for (size_t band = TERRAIN_HL; band <= TERRAIN_HH; band++) paint_detail(canvas, p, level, band, end);
    progress_end();
    if (end == 0) return; /* there is nothing to be seen */
    fprintf(report, "HL%d, LH%d and HH%d: middle grey is 0, black is -%ld and white %ld (%llu beyond)\n", (int)level, (int)level,
            (int)level, (long)end, (long)end, (unsigned long long)larger_in_level(p, level, end));
}

/* LL, from black at its lowest to white at its highest. */
static void paint_coarse(Canvas *canvas, const Plane *p)
{
    int64_t least = INT64_MAX, most = INT64_MIN;
    size_t start, length;
    for (size_t row = 0; next_row(p, p->levels, TERRAIN_LL, row, &start, &length); row++)
        for (size_t i = start; i < start + length; i++) {
            if (p->numbers[i] < least) least = p->numbers[i];
            if (p->numbers[i] > most) most = p->numbers[i];
        }
    for (size_t row = 0; next_row(p, p->levels, TERRAIN_LL, row, &start, &length); row++)
        for (size_t i = start; i < start + length; i++)
            paint_number(canvas, p, i, (uint16_t)(most > least ? (p->numbers[i] - least) * WHITE / (most - least) : GREY));
    fprintf(report, "LL%d: black is %ld and white %ld\n", (int)p->levels, (long)least, (long)most);
}

/* A band's name in its upper left corner, as large as there is room for; where there is none, it says so. */
static void name_band(Canvas *canvas, const Plane *p, size_t level, size_t band, size_t left, size_t top, size_t right, size_t bottom)
{
    static const char *const names[] = {"LL", "HL", "LH", "HH"};
    char name[4] = {names[band][0], names[band][1], (char)('0' + level), 0};
    size_t k = p->pixels, rim = 3, wide = (right - left) * k, high = (bottom - top) * k;
    if (left == right || top == bottom) return;
    if (wide > rim && high > rim) {
        /* large letters only where they hide little */
        if (wide > 120 && canvas_name(canvas, name, left * k + rim, top * k + rim, wide - rim, high - rim, 2)) return;
        if (canvas_name(canvas, name, left * k + rim, top * k + rim, wide - rim, high - rim, 1)) return;
    }
    fprintf(report, "%s is too small to be named in the picture\n", name);
}

/* The lines between the bands of a level, which has the first `width` columns and `height` rows of the plane, and the bands' names. */
static void border_level(Canvas *canvas, const Plane *p, size_t level, size_t width, size_t height)
{
    size_t right = (width + 1) / 2, below = (height + 1) / 2, k = p->pixels, thick = k > 3 ? 2 : 1;
    if (right < width) canvas_box(canvas, right * k, 0, thick, height * k, WHITE);
    if (below < height) canvas_box(canvas, 0, below * k, width * k, thick, WHITE);
    name_band(canvas, p, level, TERRAIN_HL, right, 0, width, below);
    name_band(canvas, p, level, TERRAIN_LH, 0, below, right, height);
    name_band(canvas, p, level, TERRAIN_HH, right, below, width, height);
    if (level < p->levels) border_level(canvas, p, level + 1, right, below);
    else name_band(canvas, p, level, TERRAIN_LL, 0, 0, right, below);
}

static void draw(const Plane *p, Output *out)
{
    Picture picture = picture_of(out->name, p->width * p->pixels, p->height * p->pixels, 1, 16);
    Canvas canvas = {picture.width, picture.height, picture.samples};
    progress_begin("painting");
    for (size_t level = 1; level <= p->levels; level++) paint_level(&canvas, p, level);
    paint_coarse(&canvas, p);
    border_level(&canvas, p, 1, p->width, p->height);
    picture_write(out, &picture);
}

int bands(const Words *words)
{
    size_t levels = levels_of(words->word[0]);
    const char *path = words->word[1], *to = words->word[2];
    picture_named(to);
    Map map = map_read(path, TERRAIN_MAX_WIDTH);
    size_t n = map.width * map.height;
    int32_t *numbers = (int32_t *)lent(n, sizeof *numbers, path), *work = (int32_t *)lent(n, sizeof *work, path);
    Plane plane = {numbers, map.width, map.height, levels, pixels_of(map.width, map.height, SIDE, MOST_PIXELS)};
    uint32_t no = terrain_map_forward(map.heights, n, terrain_shape_of(map.width, map.height, levels), numbers, n, work, n);
    if (no) fail(STATUS_REFUSED, "%s: %s: %zu x %zu heights (question %u)", path, terrain_sentence(no), map.width, map.height, (unsigned)no);
    Output out = picture_open(to);
    report = output_report(&out);
    draw(&plane, &out);
    output_keep(&out);
    return STATUS_DONE;
}
