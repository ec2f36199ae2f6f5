/* terrain far: the distant ground of a map, as a reader that stops at a level hands it out: shaded, as a PNG, or its heights, as a PGM. How many of the
 * map's band rows and coefficients were read for it is told. */
#include <stdio.h>

#include "commands.h"
#include "end.h"
#include "form.h"
#include "picture.h"
#include "plane.h"
#include "relief.h"

enum { LEVELS = TERRAIN_MAX_LEVELS };

/* What was read of all there is. */
typedef struct {
    size_t rows, numbers, all_rows;
} Reads;

static size_t band_rows_of(const Plane *p)
{
    size_t count = 0, start, length;
    for (size_t level = 1; level <= LEVELS; level++)
        for (size_t band = TERRAIN_LL; band <= TERRAIN_HH; band++)
            for (size_t row = 0; terrain_band_row(p->count, p->shape, level, band, row, &start, &length) == 0; row++) count++;
    return count;
}

static void count_row(void *reads, const int32_t *row, size_t length)
{
    (void)row;
    ((Reads *)reads)->rows++, ((Reads *)reads)->numbers += length;
}

/* The rows of the level's LL through a reader that stops there, fed from the plane as it wants. */
static void read_far(const Plane *p, size_t stop, Map *ground, Reads *reads)
{
    Reading reading = reading_of(p);
    passed(p->name, terrain_reader_set_up_at(reading.state, p->shape, stop, reading.store, reading.store_len));
    plane_read(p, &reading, ground, count_row, reads);
    reads->all_rows = band_rows_of(p);
}

static void write_ground(Output *out, const Map *ground)
{
    if (ends_in(out->name, ".pgm")) {
        form_write(out, ground);
    } else {
        Picture picture = relief(out->name, ground, RELIEF_COLOUR);
        png_write(out, &picture);
    }
    output_keep(out);
}

int far(const Words *words)
{
    size_t stop = levels_of(words->word[0]), columns, rows;
    const char *path = words->word[1], *to = words->word[2];
    Reads reads = {0, 0, 0};
    picture_named(to);
    Map map = map_read(path, TERRAIN_MAX_WIDTH);
    Plane plane = plane_of(path, &map, LEVELS);
    passed(path, terrain_level_size(plane.shape, stop, &columns, &rows));
    Map ground = map_of(path, columns, rows);
    Output out = picture_open(to);
    FILE *report = output_report(&out);
    read_far(&plane, stop, &ground, &reads);
    write_ground(&out, &ground);
    fprintf(report, "level %zu: %zu x %zu heights of %zu x %zu; read %zu of %zu band rows, %zu of %zu coefficients\n", stop, columns, rows, map.width,
            map.height, reads.rows, reads.all_rows, reads.numbers, plane.count);
    return STATUS_DONE;
}
