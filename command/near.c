/* terrain near: how near each cell of the level-1 LL is to changing, as a picture: the least change of one height that alters it, 1 to 4. The share of each
 * is told. */
#include <stdio.h>
#include <stdlib.h>
#include <terrain.h>

#include "commands.h"
#include "end.h"
#include "picture.h"
#include "progress.h"

enum { SIDE = 1024, MOST_PIXELS = 16, FARTHEST = 4 };

/* Red: 1 is enough; green: it takes 4. */
static const uint16_t colours[FARTHEST + 1][3] = {{0, 0, 0}, {215, 48, 39}, {253, 174, 97}, {255, 236, 150}, {72, 160, 90}};

/* The difference of the nearest change of a cell, 1 to 4. */
static unsigned nearness(const char *name, const Map *map, size_t row, size_t column)
{
    uint64_t change[3];
    uint32_t no = terrain_nearest_change(map->heights, map->width * map->height, map->width, map->height, row, column, change);
    if (no) fail(STATUS_REFUSED, "%s: %s (question %u)", name, terrain_sentence(no), (unsigned)no);
    return (unsigned)abs((int)change[2] - (int)map->heights[change[0] * map->width + change[1]]);
}

static void paint(Picture *picture, size_t row, size_t column, size_t side, const uint16_t colour[3])
{
    for (size_t y = row * side; y < (row + 1) * side; y++)
        for (size_t x = column * side; x < (column + 1) * side; x++) memcpy(picture->samples + 3 * (y * picture->width + x), colour, 3 * sizeof *colour);
}

/* The picture of the cells, and how many there are of each. */
static Picture cells(const char *name, const Map *map, uint64_t count[FARTHEST + 1])
{
    size_t width = (map->width + 1) / 2, height = (map->height + 1) / 2, side = pixels_of(width, height, SIDE, MOST_PIXELS);
    Picture picture = picture_of(name, width * side, height * side, 3, 8);
    progress_begin("searching");
    for (size_t row = 0; row < height; row++) {
        for (size_t column = 0; column < width; column++) {
            unsigned n = nearness(name, map, row, column);
            count[n]++;
            paint(&picture, row, column, side, colours[n]);
        }
        progress(row, height);
    }
    progress_end();
    return picture;
}

int near(const Words *words)
{
    static const char *const names[] = {"", "red", "orange", "yellow", "green"};
    uint64_t count[FARTHEST + 1] = {0}, all = 0;
    png_named(words->word[1]);
    Map map = map_read(words->word[0], TERRAIN_MAX_WIDTH);
    Picture picture = cells(words->word[0], &map, count);
    Output out = picture_open(words->word[1]);
    FILE *report = output_report(&out);
    picture_write(&out, &picture);
    output_keep(&out);
    for (int n = 1; n <= FARTHEST; n++) all += count[n];
    for (int n = 1; n <= FARTHEST; n++)
        fprintf(report, "%d (%s): %llu of %llu cells, %.1f %%\n", n, names[n], (unsigned long long)count[n], (unsigned long long)all,
                100.0 * (double)count[n] / (double)all);
    return STATUS_DONE;
}
