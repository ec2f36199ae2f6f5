/* A long strip of ground through a writer and a reader side by side, in constant memory: of each band only the rows that the reader does
   not want yet are kept. strip [ROWS [WIDTH [LEVELS]]] says the hash of the heights in and out.
   From the top of the repository: cc -O2 -I include examples/strip.c target/staticlib/libterrain.a -o target/strip && target/strip */
#include <inttypes.h>
#include <stdio.h>
#include <stdlib.h>
#include <terrain.h>

enum { WIDEST = 16, DEEPEST = 5, KEPT = 4 << DEEPEST };

/* the rows of one band on their way, numbers first to last - 1 */
struct band {
    uint64_t first, last;
    int32_t rows[KEPT][WIDEST];
};

static size_t width = 4, levels = 3;
static uint64_t rows = 100000, in = 14695981039346656037u, out = 14695981039346656037u, random_state = 1;
static struct band bands[DEEPEST + 1][4];
static int32_t writer_store[4 * 2 * WIDEST + 4 * DEEPEST], reader_store[4 * 2 * WIDEST + 4 * DEEPEST];
static uint64_t writer[16], reader[16];

static void hash(uint64_t *h, const uint16_t *row)
{
    for (size_t i = 0; i < width; i++) *h = (*h ^ row[i]) * 1099511628211u;
}

/* ground that rises and falls by a little, so that no row is like another */
static void next_row(uint16_t *row)
{
    for (size_t i = 0; i < width; i++) {
        random_state = random_state * 6364136223846793005u + 1442695040888963407u;
        row[i] = (uint16_t)(row[i] + (random_state >> 60) - 7);
    }
}

/* draws every band row that waits and keeps it; 0, or the number of the question that says no */
static uint32_t draw_all(size_t len)
{
    for (;;) {
        uint64_t row[4];
        int32_t values[WIDEST];
        uint32_t no = terrain_writer_draw(writer, writer_store, len, values, WIDEST, row);
        if (no || row[0] == 0) return no;
        struct band *b = &bands[row[0]][row[1]];
        if (row[2] != b->last || b->last - b->first == KEPT) exit(3);
        for (size_t i = 0; i < row[3]; i++) b->rows[b->last % KEPT][i] = values[i];
        b->last++;
    }
}

/* feeds and draws as the reader wants, as far as the rows kept go; 0, or the number of the question that says no */
static uint32_t read_on(size_t len, int *done)
{
    for (;;) {
        uint64_t want[5];
        uint16_t row[WIDEST];
        size_t drawn;
        uint32_t no = terrain_reader_want(reader, want);
        if (no || (*done = want[0] == 2)) return no;
        if (want[0] == 1) {
            if ((no = terrain_reader_draw(reader, reader_store, len, row, WIDEST, &drawn)) != 0) return no;
            hash(&out, row);
            continue;
        }
        struct band *b = &bands[want[1]][want[2]];
        if (b->first == b->last) return 0;
        if (want[3] != b->first) exit(3);
        if ((no = terrain_reader_feed(reader, reader_store, len, b->rows[b->first % KEPT], (size_t)want[4])) != 0) return no;
        b->first++;
    }
}

static uint32_t stream(size_t len, int *done)
{
    uint32_t no;
    uint16_t row[WIDEST] = {0};
    for (uint64_t r = 0; r < rows; r++) {
        next_row(row);
        hash(&in, row);
        for (size_t at = 0, taken; at < width; at += taken) {
            if ((no = terrain_writer_offer(writer, writer_store, len, row + at, width - at, &taken)) != 0) return no;
            if ((no = draw_all(len)) != 0) return no;
        }
        if ((no = read_on(len, done)) != 0) return no;
    }
    if ((no = terrain_writer_finish(writer, writer_store, len)) != 0) return no;
    if ((no = draw_all(len)) != 0) return no;
    return read_on(len, done);
}

int main(int argc, char **argv)
{
    int done = 0;
    uint32_t no;
    size_t len;
    if (argc > 1) rows = strtoull(argv[1], NULL, 10);
    if (argc > 2) width = (size_t)strtoull(argv[2], NULL, 10);
    if (argc > 3) levels = (size_t)strtoull(argv[3], NULL, 10);
    len = terrain_store_length(terrain_shape_of(width, (size_t)rows, levels));
    if (width > WIDEST || !len) return 2;
    no = terrain_writer_set_up(writer, terrain_shape_of(width, (size_t)rows, levels), writer_store, len);
    if (!no) no = terrain_reader_set_up(reader, terrain_shape_of(width, (size_t)rows, levels), reader_store, len);
    if (!no) no = stream(len, &done);
    printf("%" PRIu64 " rows of %zu heights at %zu levels: %016" PRIx64 " in, %016" PRIx64 " out\n", rows, width, levels, in, out);
    if (no) printf("turned away by question %" PRIu32 "\n", no);
    printf("%s\n", !no && done && in == out ? "the same heights" : "NOT the same heights");
    return no || !done || in != out;
}
