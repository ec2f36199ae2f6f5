/* Heights without a header. */
#include "raw.h"

#include <stdlib.h>

#include "end.h"
#include "progress.h"
#include "words.h"

/* All bytes of an input. */
static uint8_t *all_of(Input *in, uint64_t *count)
{
    uint64_t room = in->size ? in->size + 1 : 1 << 20;
    uint8_t *bytes = (uint8_t *)lent(room, 1, in->name);
    size_t got;
    progress_begin("reading");
    for (*count = 0; (got = input_read(in, bytes + *count, (size_t)(room - *count))) > 0; progress(*count, in->size)) {
        *count += got;
        if (*count < room) continue;
        room *= 2;
        bytes = (uint8_t *)realloc(bytes, (size_t)room);
        if (!bytes) fail(STATUS_UNABLE, "%s: there is not enough memory for it", in->name);
    }
    progress_end();
    return bytes;
}

static uint64_t root_of(uint64_t n)
{
    uint64_t root = 0;
    for (uint64_t bit = (uint64_t)1 << 31; bit > 0; bit /= 2)
        if ((root + bit) * (root + bit) <= n) root += bit;
    return root;
}

/* Width and height, as they were given or as a square, or the end. */
static void sides_of(const Input *in, const char *size, uint64_t count, uint64_t *width, uint64_t *height)
{
    if (count == 0) fail(STATUS_REFUSED, "%s: it is empty", in->name);
    *width = *height = root_of(count / 2);
    if (size) size_of(size, width, height);
    if (2 * *width * *height == count) return;
    if (size)
        fail(STATUS_REFUSED, "%s: %s bytes, and %s x %s heights of 16 bits are %s", in->name, pgm_grouped(count), pgm_grouped(*width), pgm_grouped(*height),
             pgm_grouped(2 * *width * *height));
    fail(STATUS_REFUSED, "%s: %s bytes are no square of heights of 16 bits: say --size WIDTHxHEIGHT", in->name, pgm_grouped(count));
}

/* How much neighbours differ, in the order read and in the other one. */
static void roughness(const Map *map, uint64_t sums[2])
{
    sums[0] = sums[1] = 0;
    for (size_t i = 1; i < map->width * map->height; i++) {
        uint16_t a = map->heights[i - 1], b = map->heights[i];
        sums[0] += (uint64_t)abs((int)a - (int)b);
        sums[1] += (uint64_t)abs((int)(uint16_t)(a << 8 | a >> 8) - (int)(uint16_t)(b << 8 | b >> 8));
    }
}

Map raw_read(Input *in, const char *size, int order)
{
    uint64_t count, width, height, rough[2];
    uint8_t *bytes = all_of(in, &count);
    sides_of(in, size, count, &width, &height);
    Map map = map_of(in->name, width, height);
    for (uint64_t i = 0; i < width * height; i++)
        map.heights[i] = (uint16_t)(order == BIG ? bytes[2 * i] << 8 | bytes[2 * i + 1] : bytes[2 * i + 1] << 8 | bytes[2 * i]);
    free(bytes);
    roughness(&map, rough);
    if (rough[0] / 4 > rough[1])
        fprintf(stderr, "terrain: %s: the ground would be smoother in the other byte order: --from %s, perhaps?\n", in->name, order == BIG ? "raw" : "raw-big");
    return map;
}

void raw_write(Output *out, const Map *map, int order)
{
    uint8_t *row = (uint8_t *)lent(map->width, 2, out->name);
    progress_begin("writing");
    for (size_t y = 0; y < map->height; y++) {
        for (size_t x = 0; x < map->width; x++) {
            uint16_t height = map->heights[y * map->width + x];
            row[2 * x + (order == BIG)] = (uint8_t)height;
            row[2 * x + (order != BIG)] = (uint8_t)(height >> 8);
        }
        output_write(out, row, 2 * map->width);
        progress(y, map->height);
    }
    progress_end();
    free(row);
}
