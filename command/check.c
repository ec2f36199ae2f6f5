/* terrain check: a map through the writer and the reader and back, cut at random, at every number of levels. The seed alone says how the map is cut: the
 * same seed, the same cuts. */
#include <inttypes.h>
#include <stdio.h>
#include <time.h>

#include "../examples/coefficients.h"
#include "commands.h"
#include "end.h"
#include "map.h"
#include "progress.h"

/* Where random numbers come from (splitmix64): any seed is as good as another. */
static uint64_t random_state;

/* 0 to n - 1. */
static size_t below(size_t n)
{
    uint64_t z = random_state += 0x9e3779b97f4a7c15u;
    z = (z ^ z >> 30) * 0xbf58476d1ce4e5b9u;
    z = (z ^ z >> 27) * 0x94d049bb133111ebu;
    return (size_t)((z ^ z >> 31) % n);
}

/* What is checked, and how far: the rows written and read, of all levels together. */
typedef struct {
    const char *name;
    const Map *map;
    uint64_t seed;
    size_t runs, rows;
} Check;

/* `row` rows of this direction are done. */
static void so_far(Check *c, size_t levels, int reading, size_t row)
{
    size_t height = c->map->height, done = ((levels - 1) * 2 + (size_t)reading) * height + row;
    if (done == c->rows) return;
    c->rows = done;
    progress(done, 2 * TERRAIN_MAX_LEVELS * (uint64_t)height);
}

/* The heights in runs of random lengths through a writer, into the plane. */
static uint32_t write_cut(Check *c, size_t levels, int32_t *plane, int32_t *store, size_t store_len, int32_t *line)
{
    const Map *map = c->map;
    uint64_t state[TERRAIN_STATE_LENGTH];
    size_t n = map->width * map->height, offered = 0;
    uint32_t no = terrain_writer_set_up(state, terrain_shape_of(map->width, map->height, levels), store, store_len);
    while (!no && offered < n) {
        size_t run = below(3 * map->width) + below(2), taken = 0;
        if (run > n - offered) run = n - offered;
        no = terrain_writer_offer(state, store, store_len, map->heights + offered, run, &taken);
        offered += taken;
        c->runs++;
        if (!no) no = draw_rows(state, store, store_len, line, plane, map->width, map->height, levels);
        so_far(c, levels, 0, offered / map->width);
    }
    if (!no) no = terrain_writer_finish(state, store, store_len);
    return no ? no : draw_rows(state, store, store_len, line, plane, map->width, map->height, levels);
}

/* The plane's rows through a reader: *row is the first height row that comes back different, or the height. */
static uint32_t read_back(Check *c, size_t levels, const int32_t *plane, int32_t *store, size_t store_len, uint16_t *line, size_t *row)
{
    const Map *map = c->map;
    uint64_t state[TERRAIN_STATE_LENGTH], want[TERRAIN_WANT_LENGTH];
    size_t n = map->width * map->height, start, length;
    uint32_t no = terrain_reader_set_up(state, terrain_shape_of(map->width, map->height, levels), store, store_len);
    for (*row = 0; !no;) {
        no = terrain_reader_want(state, want);
        if (no || want[0] == TERRAIN_WANT_DONE) break;
        if (want[0] == TERRAIN_WANT_ENDED) return 14;
        if (want[0] == TERRAIN_WANT_DRAW) {
            no = terrain_reader_draw(state, store, store_len, line, map->width, &length);
            if (!no && memcmp(line, map->heights + *row * map->width, map->width * sizeof *line) != 0) break;
            if (!no) so_far(c, levels, 1, ++*row);
        } else {
            no = terrain_band_row(n, terrain_shape_of(map->width, map->height, levels), want[LEVEL], want[BAND], want[ROW], &start, &length);
            if (!no) no = terrain_reader_feed(state, store, store_len, plane + start, length);
        }
    }
    return no;
}

/* What is not as it should be, with the command that shows it again. */
static int different(const Check *c, size_t levels, uint32_t no, size_t row)
{
    progress_end();
    fprintf(stderr, "terrain: %s: at %zu levels: ", c->name, levels);
    if (no) fprintf(stderr, "%s (question %u)\n", terrain_sentence(no), (unsigned)no);
    else fprintf(stderr, "DIFFERENT: height row %zu is not the map's\n", row);
    fprintf(stderr, "terrain: the same cuts again: terrain check --seed %" PRIu64 " %s\n", c->seed, c->name);
    return STATUS_DIFFERENT;
}

/* STATUS_DONE: identical at every number of levels. */
static int check_levels(Check *c, int32_t *plane, int32_t *store, int32_t *line, uint16_t *heights)
{
    size_t row = 0;
    for (size_t levels = 1; levels <= TERRAIN_MAX_LEVELS; levels++) {
        size_t store_len = terrain_store_length(terrain_shape_of(c->map->width, c->map->height, levels));
        uint32_t no = write_cut(c, levels, plane, store, store_len, line);
        if (!no) no = read_back(c, levels, plane, store, store_len, heights, &row);
        if (no || row != c->map->height) return different(c, levels, no, row);
    }
    progress_end();
    printf("identical: %zu x %zu heights, 1 to %d levels, %zu runs, seed %" PRIu64 "\n", c->map->width, c->map->height, TERRAIN_MAX_LEVELS, c->runs, c->seed);
    return STATUS_DONE;
}

int check(const Words *words)
{
    const char *path = words->word[0], *name = strcmp(path, "-") == 0 ? "standard input" : path;
    uint64_t seed = option(words, "--seed") ? number_of("a seed", option(words, "--seed"), UINT64_MAX) : (uint64_t)time(NULL);
    Map map = map_read(path, TERRAIN_MAX_WIDTH);
    Check c = {name, &map, seed, 0, 0};
    random_state = seed;
    progress_begin("checking");
    return check_levels(&c, lent(map.width * map.height, sizeof(int32_t), name), lent(TERRAIN_MAX_STORE_LENGTH, sizeof(int32_t), name),
                        lent(map.width, sizeof(int32_t), name), lent(map.width, sizeof(uint16_t), name));
}
