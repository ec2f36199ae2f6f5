/* Packing by zlib's deflate. The bytes are counted and not kept. */
#include "pack.h"

#include <stdlib.h>
#include <zlib.h>

#include "../examples/coefficients.h"
#include "end.h"

enum { BUFFER = 1 << 16, EFFORT = 6 };

struct Packing {
    z_stream zlib;
    unsigned char row[NUMBER_BYTES * TERRAIN_MAX_WIDTH], packed[BUFFER];
};

Packing *pack_begin(const char *name)
{
    Packing *packing = (Packing *)lent(1, sizeof *packing, name);
    memset(&packing->zlib, 0, sizeof packing->zlib);
    if (deflateInit(&packing->zlib, EFFORT) != Z_OK) fail(STATUS_UNABLE, "%s: there is not enough memory", name);
    return packing;
}

/* The first n bytes of the row, and, at the end, what deflate still keeps. */
static void pack(Packing *packing, size_t n, int flush)
{
    z_stream *z = &packing->zlib;
    z->next_in = packing->row;
    z->avail_in = (uInt)n;
    do {
        z->next_out = packing->packed;
        z->avail_out = BUFFER;
        deflate(z, flush);
    } while (z->avail_out == 0);
}

void pack_row(Packing *packing, const int32_t *row, size_t length) { pack(packing, short_numbers(row, length, packing->row), Z_NO_FLUSH); }

uint64_t pack_end(Packing *packing)
{
    uint64_t bytes;
    pack(packing, 0, Z_FINISH);
    bytes = packing->zlib.total_out;
    deflateEnd(&packing->zlib);
    free(packing);
    return bytes;
}
