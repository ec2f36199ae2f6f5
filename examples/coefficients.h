/* A file of a map's coefficients: written through the writer, loaded through the reader in reads of any size. C and C++.
 *
 * The file: width, height and levels, then every band row in the order in which the reader wants them, so that it is loaded from front to
 * back. All numbers are 32 bits, the least significant byte first. `examples/compressed.h` writes and reads the same rows in another form.
 *
 * Each function answers 0, or the number of the question that turned a call away (terrain.h), or NO_FILE or NO_MEMORY. */
#ifndef COEFFICIENTS_H
#define COEFFICIENTS_H

#include <stdio.h>
#include <stdlib.h>
#include <string.h>
#include <terrain.h>

enum { LEVEL = 1, BAND, ROW, LENGTH }; /* the places of want */
#define NO_FILE 100u
#define NO_MEMORY 101u
#define DAMAGED 102u

static inline const char *sentence(uint32_t number)
{
    return number == NO_FILE ? "the file cannot be opened, written or read to its end"
        : number == NO_MEMORY ? "there is not enough memory"
        : number == DAMAGED ? "the file is damaged, or something else" : terrain_sentence(number);
}

/* Where rows go, and where they come from, whole: first the map's width, height and levels, then its band rows. 0: it was not written, or
 * there is none. */
typedef int PutRow(void *to, const int32_t *row, size_t length);
typedef int GetRow(void *from, int32_t *row, size_t length);

/* A row in as few bytes as its numbers need; how many there are. Number n becomes 2n, or -2n - 1 below 0, so that numbers near 0 are small; then
 * seven bits go into a byte, the lowest first, and 128 is added to each byte but the last. */
enum { NUMBER_BYTES = 5 }; /* at most, a number */

static inline size_t short_numbers(const int32_t *row, size_t length, unsigned char *bytes)
{
    size_t n = 0;
    for (size_t i = 0; i < length; i++) {
        uint32_t z = row[i] < 0 ? ~((uint32_t)row[i] << 1) : (uint32_t)row[i] << 1;
        for (; z > 127; z >>= 7) bytes[n++] = (unsigned char)(z | 128);
        bytes[n++] = (unsigned char)z;
    }
    return n;
}

/* A fresh reader: a tolerant one of a plane that was rounded by a step above 1, since such a plane is no map's. */
static inline uint32_t set_up_reader(uint64_t state[16], terrain_shape shape, size_t step, int32_t *store, size_t store_len)
{
    if (step > 1) return terrain_tolerant_set_up(state, shape.width, shape.height, shape.levels, store, store_len);
    return terrain_reader_set_up(state, shape, store, store_len);
}

/* ---- writing */

/* Every row that waits goes to its place in the plane. `line` has `width` numbers. */
static inline uint32_t draw_rows(uint64_t state[16], int32_t *store, size_t store_len, int32_t *line,
                                 int32_t *plane, size_t width, size_t height, size_t levels)
{
    for (;;) {
        uint64_t row[TERRAIN_ROW_LENGTH];
        size_t start, length;
        uint32_t no = terrain_writer_draw(state, store, store_len, line, width, row);
        if (no || row[0] == 0) return no;
        no = terrain_band_row(width * height, terrain_shape_of(width, height, levels), row[0], row[1], row[2], &start, &length);
        if (no) return no;
        memcpy(plane + start, line, length * sizeof *line);
    }
}

/* The heights through a writer, into a plane of width * height numbers. */
static inline uint32_t write_plane(const uint16_t *heights, size_t width, size_t height, size_t levels, int32_t *plane)
{
    uint64_t state[TERRAIN_STATE_LENGTH];
    size_t store_len = terrain_store_length(terrain_shape_of(width, height, levels)), offered = 0, taken;
    int32_t *store = (int32_t *)malloc((store_len + width + 1) * sizeof *store), *line = store + store_len;
    uint32_t no = store ? terrain_writer_set_up(state, terrain_shape_of(width, height, levels), store, store_len) : NO_MEMORY;
    while (!no && offered < width * height) {
        no = terrain_writer_offer(state, store, store_len, heights + offered, width * height - offered, &taken);
        if (!no) offered += taken;
        if (!no) no = draw_rows(state, store, store_len, line, plane, width, height, levels);
    }
    if (!no) no = terrain_writer_finish(state, store, store_len);
    if (!no) no = draw_rows(state, store, store_len, line, plane, width, height, levels);
    free(store);
    return no;
}

/* The plane's band rows, in the order in which a reader wants them: the reader itself says it. `line` has `width` heights. */
static inline uint32_t save_rows(PutRow *put, void *to, const int32_t *plane, size_t width, size_t height, size_t levels,
                                 uint64_t state[16], int32_t *store, size_t store_len, uint16_t *line)
{
    for (;;) {
        uint64_t want[TERRAIN_WANT_LENGTH];
        size_t start, length;
        uint32_t no = terrain_reader_want(state, want);
        if (no || want[0] == TERRAIN_WANT_DONE) return no;
        if (want[0] == TERRAIN_WANT_ENDED) return 14;
        if (want[0] == TERRAIN_WANT_DRAW) {
            no = terrain_reader_draw(state, store, store_len, line, width, &length);
        } else {
            no = terrain_band_row(width * height, terrain_shape_of(width, height, levels), want[LEVEL], want[BAND], want[ROW], &start, &length);
            if (!no && !put(to, plane + start, length)) no = NO_FILE;
            if (!no) no = terrain_reader_feed(state, store, store_len, plane + start, length);
        }
        if (no) return no;
    }
}

/* Of a plane as a writer made it the step is 1. */
static inline uint32_t save_plane(PutRow *put, void *to, const int32_t *plane, size_t width, size_t height, size_t levels, size_t step)
{
    uint64_t state[TERRAIN_STATE_LENGTH];
    size_t store_len = terrain_store_length(terrain_shape_of(width, height, levels));
    int32_t *store = (int32_t *)malloc((store_len + 1) * sizeof *store);
    uint16_t *line = (uint16_t *)malloc(width * sizeof *line);
    uint32_t no = store && line ? set_up_reader(state, terrain_shape_of(width, height, levels), step, store, store_len) : NO_MEMORY;
    const int32_t size[3] = {(int32_t)width, (int32_t)height, (int32_t)levels};
    if (!no && !put(to, size, 3)) no = NO_FILE;
    if (!no) no = save_rows(put, to, plane, width, height, levels, state, store, store_len, line);
    free(line);
    free(store);
    return no;
}

static inline int put_numbers(void *to, const int32_t *row, size_t length)
{
    FILE *file = (FILE *)to;
    for (size_t i = 0; i < length; i++)
        for (int shift = 0; shift < 32; shift += 8) putc((int)((uint32_t)row[i] >> shift & 255), file);
    return !ferror(file);
}

static inline uint32_t write_coefficients(const char *path, const uint16_t *heights, size_t width, size_t height, size_t levels)
{
    int32_t *plane = (int32_t *)malloc(width * height * sizeof *plane);
    uint32_t no = plane ? write_plane(heights, width, height, levels, plane) : NO_MEMORY;
    FILE *file = no ? NULL : fopen(path, "wb");
    if (!no) no = file ? save_plane(put_numbers, file, plane, width, height, levels, 1) : NO_FILE;
    if (file) {
        int lost = ferror(file);
        if (fclose(file) != 0) lost = 1;
        if (lost && !no) no = NO_FILE;
    }
    free(plane);
    return no;
}

/* ---- loading */

/* A file read `read_size` bytes at a time, wherever that cuts a number or a row. */
typedef struct {
    FILE *file;
    unsigned char *bytes;
    size_t read_size, at, end;
} Source;

static inline int get_numbers(void *source, int32_t *row, size_t length)
{
    Source *from = (Source *)source;
    for (size_t i = 0; i < length; i++) {
        uint32_t n = 0;
        for (int shift = 0; shift < 32; shift += 8) {
            if (from->at == from->end) {
                from->at = 0;
                from->end = fread(from->bytes, 1, from->read_size, from->file);
                if (from->end == 0) return 0;
            }
            n |= (uint32_t)from->bytes[from->at++] << shift;
        }
        row[i] = (int32_t)n;
    }
    return 1;
}

static inline uint32_t load_rows(GetRow *get, void *from, size_t width, uint64_t state[16], int32_t *store, size_t store_len, int32_t *run,
                                 uint16_t *heights)
{
    for (;;) {
        uint64_t want[TERRAIN_WANT_LENGTH];
        size_t drawn;
        uint32_t no = terrain_reader_want(state, want);
        if (no || want[0] == TERRAIN_WANT_DONE) return no;
        if (want[0] == TERRAIN_WANT_ENDED) return 14;
        if (want[0] == TERRAIN_WANT_DRAW) {
            no = terrain_reader_draw(state, store, store_len, heights, width, &drawn);
            if (!no) heights += drawn;
        } else {
            if (!get(from, run, want[LENGTH])) return NO_FILE;
            no = terrain_reader_feed(state, store, store_len, run, want[LENGTH]);
        }
        if (no) return no;
    }
}

/* The map's size and its heights, the plane being rounded by that step; the caller frees them. */
static inline uint32_t load_map(GetRow *get, void *from, size_t step, size_t *width, size_t *height, uint16_t **heights)
{
    uint64_t state[TERRAIN_STATE_LENGTH];
    int32_t size[3];
    if (!get(from, size, 3)) return NO_FILE;
    *width = (uint32_t)size[0];
    *height = (uint32_t)size[1];
    size_t levels = (uint32_t)size[2], store_len = terrain_store_length(terrain_shape_of(*width, *height, levels));
    int32_t *store = (int32_t *)malloc((store_len + 1) * sizeof *store);
    if (!store) return NO_MEMORY;
    /* the reader's own questions tell a good header from a bad one: nothing is allocated by a size that it turned away */
    uint32_t no = set_up_reader(state, terrain_shape_of(*width, *height, levels), step, store, store_len);
    if (!no) {
        int32_t *run = (int32_t *)malloc(*width * sizeof *run);
        *heights = (uint16_t *)malloc(*width * *height * sizeof **heights);
        no = run && *heights ? load_rows(get, from, *width, state, store, store_len, run, *heights) : NO_MEMORY;
        free(run);
    }
    free(store);
    return no;
}

static inline uint32_t load_coefficients(const char *path, size_t read_size, size_t *width, size_t *height, uint16_t **heights)
{
    Source from = {fopen(path, "rb"), (unsigned char *)malloc(read_size), read_size, 0, 0};
    *heights = NULL;
    uint32_t no = !from.file ? NO_FILE : !from.bytes ? NO_MEMORY : load_map(get_numbers, &from, 1, width, height, heights);
    if (from.file) fclose(from.file);
    free(from.bytes);
    if (no) {
        free(*heights);
        *heights = NULL;
    }
    return no;
}

#endif
