/* A file of a map's coefficients that zstd packs (libzstd-dev): the rows of coefficients.h in the reader's order, each number in as few bytes
 * as it needs, and what zstd makes of them, with its checksum. It is loaded from front to back in constant memory. C and C++.
 *
 * Its first number is the step by which the plane was rounded, 1 to 64: by 1 the map comes back as it was, by more the file is smaller and no
 * height is off by more than `terrain_error_bound` says.
 *
 * Each function answers as in coefficients.h, or DAMAGED. */
#ifndef COMPRESSED_H
#define COMPRESSED_H

#include <zstd.h>

#include "coefficients.h"

enum { BUFFER = 1 << 16 };

/* ---- writing */

typedef struct {
    FILE *file;
    ZSTD_CCtx *zstd;
    unsigned char row[NUMBER_BYTES * TERRAIN_MAX_WIDTH], packed[BUFFER];
} Packer;

/* The first n bytes of the row go to the file, and, at the end, all that zstd still keeps. 0: they do not. */
static inline int pack(Packer *to, size_t n, ZSTD_EndDirective end)
{
    ZSTD_inBuffer in = {to->row, n, 0};
    size_t left;
    do {
        ZSTD_outBuffer out = {to->packed, BUFFER, 0};
        left = ZSTD_compressStream2(to->zstd, &out, &in, end);
        if (ZSTD_isError(left) || fwrite(to->packed, 1, out.pos, to->file) < out.pos) return 0;
    } while (end == ZSTD_e_end ? left > 0 : in.pos < in.size);
    return 1;
}

static inline int put_packed(void *packer, const int32_t *row, size_t length)
{
    Packer *to = (Packer *)packer;
    return pack(to, short_numbers(row, length, to->row), ZSTD_e_continue);
}

static inline uint32_t save_packed(Packer *to, const char *path, const int32_t *plane, size_t width, size_t height, size_t levels, size_t step, int effort)
{
    const int32_t first = (int32_t)step;
    uint32_t no;
    int lost;
    ZSTD_CCtx_setParameter(to->zstd, ZSTD_c_compressionLevel, effort);
    ZSTD_CCtx_setParameter(to->zstd, ZSTD_c_checksumFlag, 1);
    to->file = fopen(path, "wb");
    if (!to->file) return NO_FILE;
    no = put_packed(to, &first, 1) ? save_plane(put_packed, to, plane, width, height, levels, step) : NO_FILE;
    lost = !no && !pack(to, 0, ZSTD_e_end);
    if (fclose(to->file) != 0) lost = 1;
    return lost && !no ? (uint32_t)NO_FILE : no;
}

/* `effort` is zstd's level, 1 to 22. The map is rounded before it is packed. */
static inline uint32_t write_compressed(const char *path, const uint16_t *heights, size_t width, size_t height, size_t levels, size_t step, int effort)
{
    int32_t *plane = (int32_t *)malloc(width * height * sizeof *plane);
    Packer *to = (Packer *)malloc(sizeof *to);
    uint32_t no = NO_MEMORY;
    if (to) to->zstd = ZSTD_createCCtx();
    if (plane && to && to->zstd) {
        no = write_plane(heights, width, height, levels, plane);
        if (!no) no = terrain_round(plane, width * height, width, height, levels, step);
        if (!no) no = save_packed(to, path, plane, width, height, levels, step, effort);
    }
    if (to) ZSTD_freeCCtx(to->zstd);
    free(to);
    free(plane);
    return no;
}

/* ---- loading */

typedef struct {
    FILE *file;
    ZSTD_DCtx *zstd;
    ZSTD_inBuffer in;
    size_t at, end; /* of what is unpacked */
    size_t left;    /* 0: zstd is at the end of what was packed, and its checksum is right */
    int damaged;
    unsigned char packed[BUFFER], unpacked[BUFFER];
} Unpacker;

/* The next byte, or EOF: the file ends, or zstd finds it damaged. */
static inline int next_byte(Unpacker *from)
{
    while (from->at == from->end) {
        ZSTD_outBuffer out = {from->unpacked, BUFFER, 0};
        if (from->in.pos == from->in.size) {
            from->in.src = from->packed;
            from->in.size = fread(from->packed, 1, BUFFER, from->file);
            from->in.pos = 0;
            if (from->in.size == 0) return EOF;
        }
        from->left = ZSTD_decompressStream(from->zstd, &out, &from->in);
        from->at = 0;
        from->end = out.pos;
        if (ZSTD_isError(from->left)) {
            from->damaged = 1;
            return EOF;
        }
    }
    return from->unpacked[from->at++];
}

static inline int get_packed(void *unpacker, int32_t *row, size_t length)
{
    Unpacker *from = (Unpacker *)unpacker;
    for (size_t i = 0; i < length; i++) {
        uint64_t z = 0;
        int byte, shift = 0;
        do {
            byte = next_byte(from);
            if (byte == EOF) return 0;
            z |= (uint64_t)(byte & 127) << shift;
            shift += 7;
        } while (byte > 127 && shift < 7 * NUMBER_BYTES);
        if (byte > 127 || z > UINT32_MAX) {
            from->damaged = 1;
            return 0;
        }
        row[i] = (int32_t)(z & 1 ? ~(uint32_t)(z >> 1) : (uint32_t)(z >> 1));
    }
    return 1;
}

/* The map and nothing else. A step that no rounding has is no such file's. */
static inline uint32_t load_packed(Unpacker *from, size_t *width, size_t *height, uint16_t **heights)
{
    int32_t step;
    uint32_t no = !get_packed(from, &step, 1) ? NO_FILE : step < 1 || step > 64 ? DAMAGED : load_map(get_packed, from, (size_t)step, width, height, heights);
    if (!no && (next_byte(from) != EOF || from->left > 0)) from->damaged = 1;
    return from->damaged ? (uint32_t)DAMAGED : no;
}

/* The map's size and its heights; the caller frees them. */
static inline uint32_t load_compressed(const char *path, size_t *width, size_t *height, uint16_t **heights)
{
    Unpacker *from = (Unpacker *)calloc(1, sizeof *from);
    uint32_t no = NO_MEMORY;
    *heights = NULL;
    if (from) from->zstd = ZSTD_createDCtx();
    if (from && from->zstd) {
        from->file = fopen(path, "rb");
        from->left = 1;
        no = from->file ? load_packed(from, width, height, heights) : NO_FILE;
        if (from->file) fclose(from->file);
    }
    if (from) ZSTD_freeDCtx(from->zstd);
    free(from);
    if (no) {
        free(*heights);
        *heights = NULL;
    }
    return no;
}

#endif
