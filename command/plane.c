/* Planes and their readers. */
#include "plane.h"

#include <stdlib.h>

#include "end.h"
#include "progress.h"

void passed(const char *name, uint32_t no)
{
    if (no) fail(STATUS_REFUSED, "%s: %s (question %u)", name, terrain_sentence(no), (unsigned)no);
}

Plane plane_of(const char *name, const Map *map, size_t levels)
{
    size_t n = map->width * map->height;
    Plane p = {name, terrain_shape_of(map->width, map->height, levels), n, (int32_t *)lent(n, sizeof *p.numbers, name)};
    int32_t *work = (int32_t *)lent(n, sizeof *work, name);
    passed(name, terrain_map_forward(map->heights, n, p.shape, p.numbers, n, work, n));
    free(work);
    return p;
}

Reading reading_of(const Plane *p)
{
    size_t store_len = terrain_store_length(p->shape);
    Reading reading = {{0}, (int32_t *)lent(store_len, sizeof *reading.store, p->name), store_len};
    return reading;
}

void plane_read(const Plane *p, Reading *reading, Map *ground, LookAtRow *look, void *to)
{
    uint64_t *state = reading->state, want[TERRAIN_WANT_LENGTH];
    size_t start, length, drawn = 0;
    progress_begin("reading");
    for (;;) {
        passed(p->name, terrain_reader_want(state, want));
        if (want[0] == TERRAIN_WANT_ROW) {
            passed(p->name, terrain_band_row(p->count, p->shape, (size_t)want[1], (size_t)want[2], (size_t)want[3], &start, &length));
            passed(p->name, terrain_reader_feed(state, reading->store, reading->store_len, p->numbers + start, length));
            look(to, p->numbers + start, length);
        } else if (want[0] == TERRAIN_WANT_DRAW) {
            passed(p->name, terrain_reader_draw(state, reading->store, reading->store_len, ground->heights + drawn, ground->width, &length));
            drawn += length;
        } else {
            break;
        }
        progress(drawn, ground->width * ground->height);
    }
    progress_end();
    free(reading->store);
}
