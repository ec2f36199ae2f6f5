/* terrain round: what rounding a map's coefficients by a step saves, and what it costs: the bytes that they take packed, the error that is promised, the
 * largest one and the mean one seen, and a picture of where, as a PNG; or the ground as it comes back, as a PGM. */
#include <stdio.h>

#include "commands.h"
#include "differences.h"
#include "end.h"
#include "form.h"
#include "pack.h"
#include "picture.h"
#include "plane.h"

static void look(void *packing, const int32_t *row, size_t length)
{
    if (packing) pack_row((Packing *)packing, row, length);
}

/* The plane through a tolerant reader, packed in the order of its wants: the bytes of that, or 0. */
static uint64_t read_tolerant(const Plane *p, Map *ground)
{
    Reading reading = reading_of(p);
    Packing *packing = pack_begin(p->name);
    passed(p->name, terrain_tolerant_set_up(reading.state, p->shape.width, p->shape.height, p->shape.levels, reading.store, reading.store_len));
    plane_read(p, &reading, ground, look, packing);
    return packing ? pack_end(packing) : 0;
}

static void write_result(Output *out, const Map *map, const Map *ground, const Differences *d)
{
    if (ends_in(out->name, ".pgm")) {
        form_write(out, ground);
    } else {
        Picture picture = picture_of_differences(out->name, map, ground, d);
        picture_write(out, &picture);
    }
    output_keep(out);
}

static void tell_bytes(FILE *report, const Map *map, uint64_t exact, uint64_t rounded)
{
    if (exact == 0)
        fprintf(report, "packed: not measured, since this terrain was built without libpng and its zlib (apt-get install libpng-dev)\n");
    else
        fprintf(report, "packed: %llu bytes, without rounding %llu, as heights %llu\n", (unsigned long long)rounded, (unsigned long long)exact,
                2 * (unsigned long long)(map->width * map->height));
}

static void tell_errors(FILE *report, const Map *map, const Differences *d, size_t promised)
{
    size_t n = map->width * map->height;
    fprintf(report, "promised: no height is off by more than %zu\n", promised);
    if (d->count == 0) {
        fprintf(report, "seen: none is off\n");
        return;
    }
    fprintf(report, "seen: at most %d (row %zu, column %zu), %.2f on average; %llu of %zu heights differ\n", d->most, d->largest / map->width,
            d->largest % map->width, (double)d->sum / (double)n, (unsigned long long)d->count, n);
}

int rounding(const Words *words)
{
    size_t step = step_of(words->word[0]), levels = option(words, "--levels") ? levels_of(option(words, "--levels")) : TERRAIN_MAX_LEVELS, promised = 0;
    const char *path = words->word[1], *to = words->word[2];
    picture_named(to);
    Map map = map_read(path, TERRAIN_MAX_WIDTH), ground = map_of(path, map.width, map.height);
    Plane plane = plane_of(path, &map, levels);
    Output out = picture_open(to);
    FILE *report = output_report(&out);
    uint64_t exact = read_tolerant(&plane, &ground), rounded;
    passed(path, terrain_round(plane.numbers, plane.count, map.width, map.height, levels, step));
    passed(path, terrain_error_bound(levels, step, &promised));
    rounded = read_tolerant(&plane, &ground);
    Differences d = differences_of(&map, &ground);
    write_result(&out, &map, &ground, &d);
    fprintf(report, "step %zu, %zu level%s, %zu x %zu heights\n", step, levels, levels == 1 ? "" : "s", map.width, map.height);
    tell_bytes(report, &map, exact, rounded);
    tell_errors(report, &map, &d, promised);
    return STATUS_DONE;
}
