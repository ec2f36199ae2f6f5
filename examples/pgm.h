/* Height maps as binary PGM pictures (Netpbm, P5) of 8 or 16 bits: read whole, written whole; `-` is standard input. For the examples; C and C++. */
#ifndef PGM_H
#define PGM_H

#include <errno.h>
#include <stdlib.h>

#include "pgm_scan.h"

typedef struct {
    size_t width, height;
    uint16_t *heights; /* row by row; the caller frees it */
} Pgm;

/* What keeps a map from being read from the file, or NULL. */
static inline const char *pgm_map(FILE *file, Pgm *map)
{
    static PgmScan scan;
    PgmLimits limits = {1000000, PGM_HUGE, "the examples read"};
    uint8_t bytes[4096];
    size_t length, taken;
    for (scan = pgm_scan_begin(limits); (length = fread(bytes, 1, sizeof bytes, file)) > 0 && !scan.wrong[0];)
        for (taken = 0; taken < length && !scan.wrong[0]; taken += pgm_scan(&scan, bytes + taken, length - taken)) {
            if (!pgm_head_whole(&scan) || map->heights) continue;
            if (pgm_count(&scan) > SIZE_MAX / 4) return "it is too large";
            scan.heights = map->heights = (uint16_t *)malloc((size_t)pgm_count(&scan) * sizeof *map->heights);
            if (!map->heights) return "there is not enough memory for it";
        }
    pgm_scan_end(&scan);
    map->width = (size_t)scan.number[PGM_WIDTH];
    map->height = (size_t)scan.number[PGM_HEIGHT];
    return scan.wrong[0] ? scan.wrong : NULL;
}

/* NULL and the map, or a sentence that says why there is none. */
static inline const char *pgm_read(const char *path, Pgm *map)
{
    int standard = strcmp(path, "-") == 0;
    const char *wrong;
    FILE *file = standard ? stdin : fopen(path, "rb");
    map->width = map->height = 0;
    map->heights = NULL;
    if (!file) return strerror(errno);
    wrong = pgm_map(file, map);
    if (ferror(file)) wrong = strerror(errno);
    if (!standard) fclose(file);
    if (wrong) {
        free(map->heights);
        map->heights = NULL;
    }
    return wrong;
}

/* 16 bits a height. 0: it was not written. */
static inline int pgm_write(const char *path, size_t width, size_t height, const uint16_t *heights)
{
    FILE *file = fopen(path, "wb");
    if (!file) return 0;
    fprintf(file, "P5\n%lu %lu\n65535\n", (unsigned long)width, (unsigned long)height);
    for (size_t i = 0; i < width * height; i++) {
        putc(heights[i] >> 8, file);
        putc(heights[i] & 255, file);
    }
    int lost = ferror(file);
    return fclose(file) == 0 && !lost;
}

#endif
