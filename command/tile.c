/* terrain tile: a map of any size cut into tiles on one grid, each with the coordinates where it lies, and joined again.
 *
 * A folder has the tiles, as PGM in the fixed form, and tiles.txt: a line `terrain tiles 1`, a line with the width and height of the world and of a tile, and
 * for each tile, row by row, its file, x, y, width and height. x and y are a terrain_shape's: the tile's coefficients are then the world's own. */
#include <inttypes.h>
#include <stdio.h>
#include <stdlib.h>
#include <string.h>
#include <terrain.h>

#include "commands.h"
#include "end.h"
#include "folder.h"
#include "form.h"
#include "progress.h"

/* A world and how it is cut. */
typedef struct {
    uint64_t width, height, tile_width, tile_height;
} Grid;

typedef struct {
    char name[40];
    uint64_t x, y, width, height;
} Tile;

static uint64_t across(const Grid *g)
{
    return (g->width + g->tile_width - 1) / g->tile_width;
}

static uint64_t tiles_of(const Grid *g)
{
    return across(g) * ((g->height + g->tile_height - 1) / g->tile_height);
}

/* Tile n, counted row by row; those at the right and at the bottom may be smaller. */
static Tile tile_at(const Grid *g, uint64_t n)
{
    Tile t = {"", n % across(g) * g->tile_width, n / across(g) * g->tile_height, g->tile_width, g->tile_height};
    if (t.width > g->width - t.x) t.width = g->width - t.x;
    if (t.height > g->height - t.y) t.height = g->height - t.y;
    snprintf(t.name, sizeof t.name, "x%05" PRIu64 "-y%05" PRIu64 ".pgm", t.x, t.y);
    return t;
}

/* A line of the list. */
static void line_of(const Tile *t, char line[160])
{
    snprintf(line, 160, "%s %" PRIu64 " %" PRIu64 " %" PRIu64 " %" PRIu64 "\n", t->name, t->x, t->y, t->width, t->height);
}

static Grid grid_of(const char *name, const Map *map, const char *size)
{
    Grid g = {map->width, map->height, 1024, 1024};
    if (size) size_of(size, &g.tile_width, &g.tile_height);
    if (g.tile_width > TERRAIN_MAX_WIDTH) fail(STATUS_USAGE, "a tile has at most %d columns, not %" PRIu64, TERRAIN_MAX_WIDTH, g.tile_width);
    Tile last = tile_at(&g, tiles_of(&g) - 1);
    if (last.x > TERRAIN_MAX_ORIGIN || last.y > TERRAIN_MAX_ORIGIN)
        fail(STATUS_REFUSED, "%s: %s x %s heights: its last tile would start beyond 65,535, the largest coordinate; cut it into fewer", name,
             pgm_grouped(g.width), pgm_grouped(g.height));
    return g;
}

/* The rows of a tile, between the world and a map of its own. */
static void copy_tile(const Map *world, const Map *own, const Tile *t, int back)
{
    for (size_t y = 0; y < own->height; y++) {
        uint16_t *there = world->heights + (t->y + y) * world->width + t->x, *here = own->heights + y * own->width;
        memcpy(back ? there : here, back ? here : there, own->width * sizeof *here);
    }
}

static void write_tile(const Map *world, const Tile *t)
{
    Map own = map_of(t->name, t->width, t->height);
    Output out = output_within(folder_file(t->name));
    copy_tile(world, &own, t, 0);
    form_write(&out, &own);
    output_keep(&out);
    free(own.heights);
}

static void write_list(const Grid *g)
{
    Output out = output_within(folder_file("tiles.txt"));
    char line[160];
    int length = snprintf(line, sizeof line, "terrain tiles 1\n%" PRIu64 " %" PRIu64 " %" PRIu64 " %" PRIu64 "\n", g->width, g->height, g->tile_width,
                          g->tile_height);
    output_write(&out, line, (size_t)length);
    for (uint64_t n = 0; n < tiles_of(g); n++) {
        Tile t = tile_at(g, n);
        line_of(&t, line);
        output_write(&out, line, strlen(line));
    }
    output_keep(&out);
}

static int cut(const char *path, const char *folder, const char *size)
{
    Map world = map_read(path, ANY_SIZE);
    Grid g = grid_of(path, &world, size);
    folder_begin(folder);
    progress_begin("cutting");
    for (uint64_t n = 0; n < tiles_of(&g); n++) {
        Tile t = tile_at(&g, n);
        write_tile(&world, &t);
        progress(n, tiles_of(&g));
    }
    progress_end();
    write_list(&g);
    folder_keep();
    printf("%" PRIu64 " tiles of %" PRIu64 " x %" PRIu64 " heights at most, %zu x %zu in all\n", tiles_of(&g), g.tile_width, g.tile_height, world.width,
           world.height);
    return STATUS_DONE;
}

/* The next line of a list, or the end. */
static void next_line(FILE *list, const char *path, char line[160])
{
    if (fgets(line, 160, list)) return;
    if (ferror(list)) fail(STATUS_UNREADABLE, "%s: it cannot be read to its end", path);
    fail(STATUS_REFUSED, "%s: it ends before its last tile", path);
}

static Grid read_grid(FILE *list, const char *path)
{
    char line[160];
    Grid g = {0, 0, 0, 0};
    next_line(list, path, line);
    if (strcmp(line, "terrain tiles 1\n") != 0) fail(STATUS_REFUSED, "%s: its first line is not 'terrain tiles 1'", path);
    next_line(list, path, line);
    if (sscanf(line, "%10" SCNu64 " %10" SCNu64 " %10" SCNu64 " %10" SCNu64, &g.width, &g.height, &g.tile_width, &g.tile_height) != 4 || g.width == 0 ||
        g.height == 0 || g.tile_width == 0 || g.tile_height == 0)
        fail(STATUS_REFUSED, "%s: its second line is not the width and height of the world and of a tile", path);
    return g;
}

/* The tile's map, of the size that the list says, in its place. */
static void read_tile(const char *folder, const Map *world, const Tile *t)
{
    char path[4200];
    snprintf(path, sizeof path, "%s/%s", folder, t->name);
    Map own = map_read(path, ANY_SIZE);
    if (own.width != t->width || own.height != t->height)
        fail(STATUS_REFUSED, "%s: %zu x %zu heights, and the list says %" PRIu64 " x %" PRIu64, path, own.width, own.height, t->width, t->height);
    copy_tile(world, &own, t, 1);
    free(own.heights);
}

static int joined(const char *folder, const char *to)
{
    char path[4200], line[160], wanted[160];
    snprintf(path, sizeof path, "%s/tiles.txt", folder);
    FILE *list = fopen(path, "r");
    if (!list) fail(STATUS_UNREADABLE, "%s: it cannot be read: it is what terrain tile puts beside its tiles", path);
    Grid g = read_grid(list, path);
    Map world = map_of(path, g.width, g.height);
    for (uint64_t n = 0; n < tiles_of(&g); n++) {
        Tile t = tile_at(&g, n);
        next_line(list, path, line);
        line_of(&t, wanted);
        if (strcmp(line, wanted) != 0) fail(STATUS_REFUSED, "%s: line %" PRIu64 " is not '%.*s'", path, n + 3, (int)strlen(wanted) - 1, wanted);
        read_tile(folder, &world, &t);
    }
    fclose(list);
    Output out = output_open(to);
    form_write(&out, &world);
    output_keep(&out);
    return STATUS_DONE;
}

int tile(const Words *words)
{
    const char *size = option(words, "--size");
    if (!option(words, "--join") && strcmp(words->word[1], "-") == 0) fail(STATUS_USAGE, "tiles go to a folder, and '-' is none");
    if (!option(words, "--join")) return cut(words->word[0], words->word[1], size);
    if (size) usage_is(words);
    return joined(words->word[0], words->word[1]);
}
