/* Maps read into memory. */
#include "map.h"

#include <stdlib.h>
#include <terrain.h>

#include "end.h"
#include "loading.h"
#include "png_file.h"
#include "progress.h"

/* What a file of another kind begins with. */
static const struct {
    const char *bytes;
    size_t length;
    const char *name;
} kinds[] = {
    {"\x89GND\r\n\x1a\n", 8, "a ground file"},
    {"\x89PNG\r\n\x1a\n", 8, "a PNG"}, {"\xff\xd8\xff", 3, "a JPEG"},        {"II*\0", 4, "a TIFF"},
    {"MM\0*", 4, "a TIFF"},            {"GIF8", 4, "a GIF"},                 {"BM", 2, "a BMP"},
    {"v/1\x01", 4, "an OpenEXR"},      {"\x1f\x8b", 2, "packed by gzip"},    {"(\xb5/\xfd", 4, "packed by zstd"},
    {"P1", 2, "a picture in text (P1)"}, {"P2", 2, "a PGM in text (P2)"},    {"P3", 2, "a picture in text (P3)"},
    {"P4", 2, "a picture of black and white (P4)"}, {"P6", 2, "a picture in colour (P6)"}, {"P7", 2, "a PAM (P7)"},
};

const char *kind_of(const uint8_t *bytes, size_t length)
{
    for (size_t i = 0; i < sizeof kinds / sizeof *kinds; i++)
        if (length >= kinds[i].length && memcmp(bytes, kinds[i].bytes, kinds[i].length) == 0) return kinds[i].name;
    return NULL;
}

const char *no_pgm(Input *in)
{
    static char sentence[100];
    uint8_t first[8];
    const char *kind = kind_of(first, input_look(in, first, sizeof first));
    if (!kind) return NULL;
    if (strcmp(kind, "a PNG") == 0) return "this is a PNG: terrain convert reads it";
    if (strcmp(kind, "a ground file") == 0) return "this is a ground file: terrain unpack reads it";
    snprintf(sentence, sizeof sentence, "this is %s, and a binary PGM (P5) is wanted", kind);
    return sentence;
}

void map_fits(const char *name, uint64_t width, size_t most)
{
    if (width > most) fail(STATUS_REFUSED, "%s: %s columns; the library takes at most %s: terrain tile cuts it", name, pgm_grouped(width), pgm_grouped(most));
}

Map map_of(const char *name, uint64_t width, uint64_t height)
{
    Map map = {(size_t)width, (size_t)height, 65535, NULL};
    if (height > SIZE_MAX / 4 / width) fail(STATUS_UNABLE, "%s: there is not enough memory for it", name);
    map.heights = (uint16_t *)lent(width * height, sizeof *map.heights, name);
    return map;
}

static Map map_from_pgm(Input *in, size_t most)
{
    static uint8_t bytes[65536];
    PgmLimits limits = {ANY_SIZE, PGM_HUGE, "a map has"};
    PgmScan scan = pgm_scan_begin(limits);
    Map map = {0, 0, 0, NULL};
    size_t length;
    progress_begin("reading");
    while (!scan.wrong[0] && (length = input_read(in, bytes, sizeof bytes)) > 0) {
        for (size_t taken = 0; taken < length && !scan.wrong[0]; taken += pgm_scan(&scan, bytes + taken, length - taken)) {
            if (!pgm_head_whole(&scan) || map.width) continue;
            map_fits(in->name, scan.number[PGM_WIDTH], most);
            map.width = (size_t)scan.number[PGM_WIDTH];
            if (in->size && pgm_count(&scan) > in->size) continue; /* it will end too early: it is read on only to say where */
            map = map_of(in->name, scan.number[PGM_WIDTH], scan.number[PGM_HEIGHT]);
            map.most = (uint16_t)scan.number[PGM_MOST];
            scan.heights = map.heights;
        }
        progress(in->at, in->size);
    }
    progress_end();
    pgm_scan_end(&scan);
    if (scan.wrong[0]) fail(STATUS_REFUSED, "%s: %s", in->name, scan.wrong);
    return map;
}

/* The height rows of a ground file go one behind the other. */
static void put_row(void *to, const uint16_t *heights, size_t width)
{
    Map *map = (Map *)to;
    if (map->heights) memcpy(map->heights + map->height * map->width, heights, width * sizeof *heights);
    map->height++;
}

static Map map_from_ground(Input *in)
{
    Loading l = loading_of(in);
    Map map = {l.shape.width, l.shape.height, 65535, NULL};
    /* a byte has 16 heights at most: a shorter file will end too early, and is read on only to say where */
    if (!in->size || (uint64_t)map.width * map.height / 16 <= in->size) map = map_of(in->name, map.width, map.height);
    map.height = 0;
    loading_rows(&l, put_row, &map);
    return map;
}

Map map_from(Input *in, size_t most)
{
    uint8_t first[8];
    const char *kind = kind_of(first, input_look(in, first, sizeof first));
    if (!kind) return map_from_pgm(in, most);
    if (strcmp(kind, "a ground file") == 0) return map_from_ground(in);
    if (strcmp(kind, "a PNG") != 0) fail(STATUS_REFUSED, "%s: %s", in->name, no_pgm(in));
    Map map = png_read(in);
    map_fits(in->name, map.width, most);
    return map;
}

Map map_read(const char *path, size_t most)
{
    Input in = input_open(path);
    Map map = map_from(&in, most);
    input_close(&in);
    return map;
}
