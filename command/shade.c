/* terrain shade: the ground as people see it, as a PNG; the lowest and the highest height are told. */
#include <stdio.h>

#include "commands.h"
#include "end.h"
#include "picture.h"
#include "relief.h"

/* The first place of the lowest or the highest height. */
static size_t place_of(const Map *map, int highest)
{
    size_t at = 0;
    for (size_t i = 1; i < map->width * map->height; i++)
        if (highest ? map->heights[i] > map->heights[at] : map->heights[i] < map->heights[at]) at = i;
    return at;
}

int shade(const Words *words)
{
    const char *to = words->word[1];
    png_named(to);
    Map map = map_read(words->word[0], ANY_SIZE);
    Picture picture = relief(words->word[0], &map, RELIEF_COLOUR);
    Output out = picture_open(to);
    FILE *report = output_report(&out);
    size_t low = place_of(&map, 0), high = place_of(&map, 1);
    picture_write(&out, &picture);
    output_keep(&out);
    fprintf(report, "lowest %u (row %zu, column %zu), highest %u (row %zu, column %zu), %zu x %zu heights\n", map.heights[low], low / map.width,
            low % map.width, map.heights[high], high / map.width, high % map.width, map.width, map.height);
    return STATUS_DONE;
}
