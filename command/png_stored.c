/* PNG without libpng: written uncompressed, a stored block of deflate after the other; not read. */
#include "end.h"
#include "png_file.h"
#include "progress.h"

/* A file and the two sums that run along: over a chunk (CRC-32) and over the rows (Adler-32). */
typedef struct {
    Output *out;
    uint32_t crc, a, b;
} Png;

void png_wanted(const char *name)
{
    fail(STATUS_UNABLE, "%s: this terrain was built without libpng and reads no PNG (apt-get install libpng-dev, and build it again)", name);
}

Map png_read(Input *in)
{
    png_wanted(in->name);
    return map_of(in->name, 1, 1);
}

/* What a byte makes of a sum that was 0. */
static uint32_t crc_of(uint32_t byte)
{
    static uint32_t table[256];
    if (table[1] == 0)
        for (uint32_t n = 0; n < 256; n++) {
            uint32_t crc = n;
            for (int i = 0; i < 8; i++) crc = crc >> 1 ^ (crc & 1 ? 0xedb88320u : 0);
            table[n] = crc;
        }
    return table[byte];
}

static void put(Png *p, const uint8_t *bytes, size_t count)
{
    for (size_t i = 0; i < count; i++) p->crc = p->crc >> 8 ^ crc_of((p->crc ^ bytes[i]) & 255);
    output_write(p->out, bytes, count);
}

static void put_number(Png *p, uint32_t n)
{
    const uint8_t bytes[] = {(uint8_t)(n >> 24), (uint8_t)(n >> 16), (uint8_t)(n >> 8), (uint8_t)n};
    put(p, bytes, 4);
}

static void chunk_begin(Png *p, uint32_t length, const char *name)
{
    put_number(p, length);
    p->crc = 0xffffffffu;
    put(p, (const uint8_t *)name, 4);
}

static void chunk_end(Png *p)
{
    put_number(p, p->crc ^ 0xffffffffu);
}

/* A stored block: bytes of rows as they are. */
static void put_block(Png *p, const uint8_t *bytes, uint32_t count, int first, int last)
{
    static const uint8_t zlib[] = {0x78, 0x01}; /* deflate, and no dictionary */
    const uint8_t head[] = {last ? 1 : 0, (uint8_t)count, (uint8_t)(count >> 8), (uint8_t)~count, (uint8_t)(~count >> 8)};
    for (uint32_t i = 0; i < count; i++) {
        p->a = (p->a + bytes[i]) % 65521;
        p->b = (p->b + p->a) % 65521;
    }
    chunk_begin(p, count + 5 + (first ? 2 : 0) + (last ? 4 : 0), "IDAT");
    if (first) put(p, zlib, 2);
    put(p, head, 5);
    put(p, bytes, count);
    if (last) put_number(p, p->b << 16 | p->a);
    chunk_end(p);
}

/* The row's bytes, after the one that says that it is not filtered. */
static void pack_row(const Picture *picture, size_t row, uint8_t *to)
{
    size_t count = picture->width * (size_t)picture->channels;
    const uint16_t *from = picture->samples + row * count;
    *to++ = 0;
    for (size_t i = 0; i < count; i++) {
        if (picture->bits == 16) *to++ = (uint8_t)(from[i] >> 8);
        *to++ = (uint8_t)from[i];
    }
}

/* A row, in as many blocks as it takes. */
static void put_row(Png *p, const uint8_t *row, size_t bytes, int first, int last)
{
    for (size_t at = 0; at < bytes; at += 65535) {
        size_t count = bytes - at < 65535 ? bytes - at : 65535;
        put_block(p, row + at, (uint32_t)count, first && at == 0, last && at + count == bytes);
    }
}

void png_write(Output *out, const Picture *picture)
{
    static const uint8_t signature[] = {0x89, 'P', 'N', 'G', '\r', '\n', 0x1a, '\n'};
    const uint8_t form[] = {(uint8_t)picture->bits, picture->channels == 3 ? 2 : 0, 0, 0, 0}; /* grey or colour, deflate, filters by row, not interlaced */
    size_t bytes = 1 + picture->width * (size_t)picture->channels * (size_t)(picture->bits / 8);
    uint8_t *row = (uint8_t *)lent(bytes, 1, out->name);
    Png p = {out, 0, 1, 0};
    output_write(out, signature, sizeof signature);
    chunk_begin(&p, 13, "IHDR");
    put_number(&p, (uint32_t)picture->width);
    put_number(&p, (uint32_t)picture->height);
    put(&p, form, sizeof form);
    chunk_end(&p);
    progress_begin("writing");
    for (size_t r = 0; r < picture->height; r++) {
        pack_row(picture, r, row);
        put_row(&p, row, bytes, r == 0, r + 1 == picture->height);
        progress(r, picture->height);
    }
    progress_end();
    chunk_begin(&p, 0, "IEND");
    chunk_end(&p);
}
