/* Maps in the fixed form. */
#include "form.h"

#include <stdlib.h>
#include <strings.h>
#include <terrain.h>

#include "end.h"
#include "progress.h"

int ends_in(const char *path, const char *ending)
{
    size_t length = strlen(path), tail = strlen(ending);
    return length > tail && strcasecmp(path + length - tail, ending) == 0;
}

/* The library's header goes up to its widest map; a wider one is said in the same words. */
void form_head(size_t width, size_t height, PutBytes *put, void *to)
{
    uint8_t head[64];
    size_t written = 0;
    if (terrain_picture_head(width, height, 0, head, sizeof head, &written) != 0)
        written = (size_t)snprintf((char *)head, sizeof head, "P5\n%zu %zu\n65535\n", width, height);
    put(to, head, written);
}

void form_row(const uint16_t *heights, size_t width, uint8_t *bytes, PutBytes *put, void *to)
{
    put(to, bytes, terrain_picture_row(heights, width, 0, bytes, 2 * width));
}

void form_bytes(const Map *map, PutBytes *put, void *to)
{
    uint8_t *row = (uint8_t *)lent(map->width, 2, "a row");
    form_head(map->width, map->height, put, to);
    for (size_t y = 0; y < map->height; y++) {
        form_row(map->heights + y * map->width, map->width, row, put, to);
        progress(y, map->height);
    }
    free(row);
}

void put_output(void *out, const void *bytes, size_t count)
{
    output_write((Output *)out, bytes, count);
}

void form_write(Output *out, const Map *map)
{
    progress_begin("writing");
    form_bytes(map, put_output, out);
    progress_end();
}
