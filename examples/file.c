/* A height map to a ground file (docs/FORMAT.md), and back in reads of a given size; with a fifth argument, BACK.pgm, what came back is written there as a
   picture in the library's fixed form. With two arguments, a ground file and the size of a read, the file is loaded alone.
   From the top of the repository:
   cc -I include examples/file.c target/staticlib/libterrain.a -o target/file && target/file examples/hill.pgm 3 target/hill.ground 1000 */
#include <terrain.h>

#include "pgm.h"

/* What can go wrong beside the library's questions. */
#define NO_FILE 100u
#define NO_MEMORY 101u
#define TOO_LONG 102u

static const char *sentence(uint32_t number)
{
    return number == NO_FILE ? "the file cannot be opened, written or read to its end"
        : number == NO_MEMORY ? "there is not enough memory"
        : number == TOO_LONG ? "more follows the end of the file" : terrain_sentence(number);
}

/* ---- saving */

/* The plane's file, area by area, until a call writes nothing. */
static uint32_t write_file(FILE *file, const int32_t *plane, size_t count, terrain_shape shape)
{
    uint64_t saver[TERRAIN_SAVER_LENGTH];
    uint8_t bytes[4096];
    size_t written = 1;
    uint32_t no = terrain_save_set_up(saver, shape, 1);
    while (!no && written > 0) {
        no = terrain_save(saver, plane, count, bytes, sizeof bytes, &written);
        if (!no && fwrite(bytes, 1, written, file) != written) no = NO_FILE;
    }
    return no;
}

static uint32_t save(const char *path, const Pgm *map, size_t levels)
{
    terrain_shape shape = terrain_shape_of(map->width, map->height, levels);
    size_t n = map->width * map->height;
    int32_t *plane = (int32_t *)malloc(n * sizeof *plane), *work = (int32_t *)malloc(n * sizeof *work);
    uint32_t no = plane && work ? terrain_map_forward(map->heights, n, shape, plane, n, work, n) : NO_MEMORY;
    FILE *file = no ? NULL : fopen(path, "wb");
    if (!no) no = file ? write_file(file, plane, n, shape) : NO_FILE;
    if (file && fclose(file) != 0 && !no) no = NO_FILE;
    free(work);
    free(plane);
    return no;
}

/* ---- loading */

/* A loader, its areas, and the file in reads of `read_size` bytes, wherever that cuts it. */
typedef struct {
    uint64_t state[TERRAIN_LOADER_LENGTH];
    terrain_shape shape;
    int32_t *store, *row;
    size_t store_len, row_len;
    FILE *file;
    uint8_t *bytes;
    size_t read_size, at, end;
} Loading;

/* The bytes that are there are taken, a read more where none is left. */
static uint32_t take(Loading *l)
{
    size_t taken = 0;
    if (l->at == l->end) {
        l->at = 0;
        l->end = fread(l->bytes, 1, l->read_size, l->file);
        if (l->end == 0) return NO_FILE;
    }
    uint32_t no = terrain_load_take(l->state, l->store, l->store_len, l->row, l->row_len, l->bytes + l->at, l->end - l->at, &taken);
    l->at += taken;
    return no;
}

/* Every height row as soon as it can be drawn; the map is worth something when the loader is Done, and not before: then its checksum was right. */
static uint32_t load_rows(Loading *l, uint16_t *heights)
{
    uint32_t want = TERRAIN_WANT_BYTES, no = 0;
    size_t drawn = 0;
    while (!no && (no = terrain_load_want(l->state, &want)) == 0 && want != TERRAIN_WANT_DONE) {
        if (want == TERRAIN_WANT_DRAW) {
            no = terrain_load_draw(l->state, l->store, l->store_len, heights, l->shape.width, &drawn);
            heights += drawn;
        } else {
            no = take(l);
        }
    }
    if (!no && (l->at < l->end || fread(l->bytes, 1, 1, l->file) > 0)) no = TOO_LONG;
    return no;
}

/* The header, by which areas are lent, and the rows; the bytes of the header are the loader's first, too. The caller frees the heights. */
static uint32_t load_map(Loading *l, uint16_t **heights)
{
    uint8_t first[TERRAIN_HEADER_LENGTH];
    uint64_t header[7];
    uint32_t no = terrain_file_header(first, fread(first, 1, sizeof first, l->file), header);
    if (no) return no;
    rewind(l->file);
    l->shape = terrain_header_shape(header);
    l->store_len = terrain_reader_store_length(l->shape);
    l->row_len = (l->shape.width + 1) / 2;
    l->store = (int32_t *)malloc(l->store_len * sizeof *l->store);
    l->row = (int32_t *)malloc(l->row_len * sizeof *l->row);
    *heights = (uint16_t *)malloc(l->shape.width * l->shape.height * sizeof **heights);
    if (!l->store || !l->row || !*heights) return NO_MEMORY;
    no = terrain_load_set_up(l->state, l->shape, (size_t)header[6], l->store, l->store_len);
    return no ? no : load_rows(l, *heights);
}

static uint32_t load(const char *path, size_t read_size, terrain_shape *shape, uint16_t **heights)
{
    Loading l = {{0}, terrain_shape_of(0, 0, 0), NULL, NULL, 0, 0, fopen(path, "rb"), (uint8_t *)malloc(read_size), read_size, 0, 0};
    *heights = NULL;
    uint32_t no = !l.file ? NO_FILE : !l.bytes ? NO_MEMORY : load_map(&l, heights);
    *shape = l.shape;
    if (l.file) fclose(l.file);
    free(l.bytes);
    free(l.row);
    free(l.store);
    return no;
}

/* ---- the program */

/* A picture in the fixed form, a row at a time. 0: it was not written. */
static int write_picture(const char *path, size_t width, size_t height, const uint16_t *heights)
{
    uint8_t bytes[2 * TERRAIN_MAX_WIDTH];
    size_t written;
    FILE *file = fopen(path, "wb");
    if (!file) return 0;
    int whole = terrain_picture_head(width, height, 0, bytes, sizeof bytes, &written) == 0 && fwrite(bytes, 1, written, file) == written;
    for (size_t y = 0; whole && y < height; y++) {
        written = terrain_picture_row(heights + y * width, width, 0, bytes, sizeof bytes);
        whole = fwrite(bytes, 1, written, file) == written;
    }
    return fclose(file) == 0 && whole;
}

static int load_alone(const char *path, const char *read_size)
{
    terrain_shape shape;
    uint16_t *heights;
    uint32_t no = load(path, (size_t)atol(read_size), &shape, &heights);
    free(heights);
    if (no) fprintf(stderr, "%s: not loaded: %s (%u)\n", path, sentence(no), (unsigned)no);
    else printf("loaded: %lu x %lu heights\n", (unsigned long)shape.width, (unsigned long)shape.height);
    return no ? 1 : 0;
}

int main(int argc, char **argv)
{
    Pgm map;
    terrain_shape shape;
    uint16_t *again;

    if (argc == 3 && atol(argv[2]) > 0) return load_alone(argv[1], argv[2]);
    if (argc < 5 || argc > 6 || atol(argv[4]) < 1) {
        fprintf(stderr, "usage: file MAP.pgm LEVELS OUT BYTES_A_READ [BACK.pgm]\n       file GROUND_FILE BYTES_A_READ\n");
        return 2;
    }
    const char *wrong = pgm_read(argv[1], &map);
    if (wrong) {
        fprintf(stderr, "%s: %s\n", argv[1], wrong);
        return 1;
    }

    uint32_t no = save(argv[3], &map, (size_t)atol(argv[2]));
    if (no) {
        fprintf(stderr, "not written: %s (%u)\n", sentence(no), (unsigned)no);
        return 1;
    }
    printf("written: %lu x %lu heights at %s levels\n", (unsigned long)map.width, (unsigned long)map.height, argv[2]);

    no = load(argv[3], (size_t)atol(argv[4]), &shape, &again);
    if (no) {
        fprintf(stderr, "not loaded: %s (%u)\n", sentence(no), (unsigned)no);
        return 1;
    }
    int same = shape.width == map.width && shape.height == map.height && memcmp(again, map.heights, map.width * map.height * sizeof *again) == 0;
    printf("loaded in reads of %s bytes: %s\n", argv[4], same ? "identical" : "DIFFERENT");
    if (argc == 6 && !write_picture(argv[5], map.width, map.height, again)) {
        fprintf(stderr, "%s: it is not written\n", argv[5]);
        same = 0;
    }
    free(again);
    free(map.heights);
    return same ? 0 : 1;
}
