/* Sixteen readers of sixteen maps, of other sizes, levels and filters each, against one file: a turn-giver says whose band row is read next. Each
   reader draws its height rows as they come, and they are held to its map; the longest wait of a reader for its turn is printed.
   From the top of the repository: cc -O2 -I include examples/turns.c target/staticlib/libterrain.a -o target/turns && target/turns */
#include <stdio.h>
#include <stdlib.h>
#include <terrain.h>
#include "fractal.h"

struct stream {
    terrain_shape shape;
    long place; /* of its plane in the file */
    uint16_t *heights;
    size_t drawn, waits, right; /* heights drawn, turns waited since it was marked or served last, heights that are its map's */
    uint64_t state[TERRAIN_STATE_LENGTH], want[TERRAIN_WANT_LENGTH];
    int32_t *store;
    size_t store_len;
};

static struct stream streams[TERRAIN_READERS];
static uint16_t line[TERRAIN_MAX_WIDTH];
static int32_t run[TERRAIN_MAX_WIDTH];

/* a map of its own, and its plane at the end of the file */
static uint32_t make(struct stream *s, size_t n, FILE *file)
{
    terrain_shape shape = terrain_shape_of(17 + 11 * n, 90 - 5 * n, 1 + n % 4);
    shape.x = (uint16_t)(3 * n);
    shape.y = (uint16_t)(5 * n);
    shape.filter = n % 2 ? TERRAIN_NINE_SEVEN : TERRAIN_FIVE_THREE;
    size_t size = shape.width * shape.height;
    int32_t *plane = (int32_t *)malloc(2 * size * sizeof *plane);
    s->shape = shape;
    s->heights = (uint16_t *)malloc(size * sizeof *s->heights);
    s->store_len = terrain_store_length(shape);
    s->store = (int32_t *)malloc((s->store_len + 1) * sizeof *s->store);
    s->place = ftell(file);
    if (!plane || !s->heights || !s->store) exit(2);
    for (size_t i = 0; i < size; i++)
        s->heights[i] = (uint16_t)(32768 + fractal_noise((uint32_t)(i % shape.width), (uint32_t)(i / shape.width), 13, (uint32_t)n));
    uint32_t no = terrain_map_forward(s->heights, size, shape, plane, size, plane + size, size);
    if (!no && fwrite(plane, sizeof *plane, size, file) != size) exit(2);
    free(plane);
    return no ? no : terrain_reader_set_up(s->state, shape, s->store, s->store_len);
}

/* every height row that can be drawn, held to the map; then its mark says whether it wants a band row */
static uint32_t draw_and_mark(struct stream *s, size_t n, uint64_t turns[TERRAIN_TURNS_LENGTH])
{
    uint32_t no = terrain_reader_want(s->state, s->want);
    while (!no && s->want[0] == TERRAIN_WANT_DRAW) {
        size_t drawn = 0;
        no = terrain_reader_draw(s->state, s->store, s->store_len, line, TERRAIN_MAX_WIDTH, &drawn);
        for (size_t i = 0; i < drawn; i++) s->right += line[i] == s->heights[s->drawn + i];
        s->drawn += drawn;
        if (!no) no = terrain_reader_want(s->state, s->want);
    }
    if (no) return no;
    return s->want[0] == TERRAIN_WANT_ROW ? terrain_turns_mark(turns, n) : terrain_turns_clear(turns, n);
}

/* the band row that the reader wants, from its place in the file */
static uint32_t read_and_feed(struct stream *s, FILE *file)
{
    size_t start, length;
    uint32_t no = terrain_band_row(s->shape.width * s->shape.height, s->shape, s->want[1], s->want[2], s->want[3], &start, &length);
    if (no) return no;
    if (fseek(file, s->place + (long)(start * sizeof *run), SEEK_SET) != 0 || fread(run, sizeof *run, length, file) != length) exit(2);
    return terrain_reader_feed(s->state, s->store, s->store_len, run, length);
}

/* turn after turn, until nobody wants a row; how many there were, and the longest wait */
static uint32_t serve(FILE *file, uint64_t turns[TERRAIN_TURNS_LENGTH], size_t *given, size_t *longest)
{
    for (;;) {
        size_t n;
        uint32_t no = terrain_turns_give(turns, &n);
        if (no || n == TERRAIN_NO_READER) return no;
        for (size_t i = 0; i < TERRAIN_READERS; i++)
            if (streams[i].want[0] == TERRAIN_WANT_ROW) streams[i].waits++;
        if (streams[n].waits > *longest) *longest = streams[n].waits;
        streams[n].waits = 0;
        ++*given;
        no = read_and_feed(&streams[n], file);
        if (!no) no = draw_and_mark(&streams[n], n, turns);
        if (no) return no;
    }
}

int main(void)
{
    uint64_t turns[TERRAIN_TURNS_LENGTH];
    size_t given = 0, longest = 0, right = 0;
    FILE *file = tmpfile();
    if (!file) return 2;
    uint32_t no = terrain_turns_set_up(turns);
    for (size_t n = 0; !no && n < TERRAIN_READERS; n++) no = make(&streams[n], n, file);
    for (size_t n = 0; !no && n < TERRAIN_READERS; n++) no = draw_and_mark(&streams[n], n, turns);
    if (!no) no = serve(file, turns, &given, &longest);
    if (no) {
        fprintf(stderr, "%s (%u)\n", terrain_sentence(no), (unsigned)no);
        return 1;
    }
    for (size_t n = 0; n < TERRAIN_READERS; n++) {
        const struct stream *s = &streams[n];
        right += s->want[0] == TERRAIN_WANT_DONE && s->right == s->shape.width * s->shape.height;
        free(s->heights);
        free(s->store);
    }
    fclose(file);
    printf("%u turns, longest wait %u\n%u of %u readers drew their map\n", (unsigned)given, (unsigned)longest, (unsigned)right, (unsigned)TERRAIN_READERS);
    return right != TERRAIN_READERS;
}
