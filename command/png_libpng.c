/* PNG by libpng: read (grey, 8 or 16 bits) and written. */
#include <png.h>
#include <stdlib.h>

#include "end.h"
#include "png_file.h"
#include "progress.h"

void png_wanted(const char *name)
{
    (void)name;
}

static void read_bytes(png_structp png, png_bytep to, png_size_t count)
{
    Input *in = (Input *)png_get_io_ptr(png);
    while (count > 0) {
        size_t got = input_read(in, to, count);
        if (got == 0) fail(STATUS_REFUSED, "%s: this PNG ends after %s bytes, before its last row", in->name, pgm_grouped(in->at));
        to += got;
        count -= got;
    }
    progress(in->at, in->size);
}

static void write_bytes(png_structp png, png_bytep bytes, png_size_t count)
{
    output_write((Output *)png_get_io_ptr(png), bytes, count);
}

static void flush(png_structp png)
{
    (void)png;
}

static void refuse(png_structp png, png_const_charp why)
{
    Input *in = (Input *)png_get_error_ptr(png);
    fail(STATUS_REFUSED, "%s: this PNG cannot be read, at byte %s: %s", in->name, pgm_grouped(in->at), why);
}

static void unwritable(png_structp png, png_const_charp why)
{
    Output *out = (Output *)png_get_error_ptr(png);
    fail(STATUS_UNWRITTEN, "%s: it cannot be written: %s", out->name, why);
}

static void warned(png_structp png, png_const_charp what)
{
    (void)png;
    (void)what;
}

/* One grey sample for each height, or the end. */
static void only_grey(png_structp png, png_infop info, Input *in)
{
    int colour = png_get_color_type(png, info);
    if (colour & PNG_COLOR_MASK_COLOR) fail(STATUS_REFUSED, "%s: this PNG is in colour, and heights are grey: save it as greyscale of 16 bits", in->name);
    if (colour & PNG_COLOR_MASK_ALPHA) png_set_strip_alpha(png);
    if (png_get_bit_depth(png, info) < 8)
        fail(STATUS_REFUSED, "%s: this PNG has %d bits a sample, and a map has 8 or 16", in->name, (int)png_get_bit_depth(png, info));
    if (png_get_bit_depth(png, info) == 16) png_set_swap(png);
    png_set_interlace_handling(png);
}

/* The rows as libpng gives them, of one byte or two a height. */
static void take_rows(png_structp png, Map *map, size_t bytes, const char *name)
{
    uint8_t *all = (uint8_t *)lent(map->width * map->height, bytes, name);
    png_bytepp rows = (png_bytepp)lent(map->height, sizeof *rows, name);
    for (size_t y = 0; y < map->height; y++) rows[y] = all + y * map->width * bytes;
    png_read_image(png, rows);
    for (size_t i = 0; i < map->width * map->height; i++) map->heights[i] = bytes == 2 ? ((const uint16_t *)(void *)all)[i] : all[i];
    free(rows);
    free(all);
}

Map png_read(Input *in)
{
    png_structp png = png_create_read_struct(PNG_LIBPNG_VER_STRING, in, refuse, warned);
    png_infop info = png ? png_create_info_struct(png) : NULL;
    Map map;
    if (!info) fail(STATUS_UNABLE, "%s: there is not enough memory for it", in->name);
    progress_begin("reading");
    png_set_read_fn(png, in, read_bytes);
    png_read_info(png, info);
    only_grey(png, info, in);
    map = map_of(in->name, png_get_image_width(png, info), png_get_image_height(png, info));
    if (png_get_bit_depth(png, info) == 8) map.most = 255;
    png_read_update_info(png, info);
    take_rows(png, &map, map.most == 255 ? 1 : 2, in->name);
    png_read_end(png, NULL);
    progress_end();
    png_destroy_read_struct(&png, &info, NULL);
    return map;
}

static void put_row(png_structp png, const Picture *picture, size_t row, uint8_t *to)
{
    size_t count = picture->width * (size_t)picture->channels;
    const uint16_t *from = picture->samples + row * count;
    for (size_t i = 0; i < count; i++) {
        if (picture->bits == 16) *to++ = (uint8_t)(from[i] >> 8);
        *to++ = (uint8_t)from[i];
    }
    png_write_row(png, to - count * (size_t)(picture->bits / 8));
}

void png_write(Output *out, const Picture *picture)
{
    png_structp png = png_create_write_struct(PNG_LIBPNG_VER_STRING, out, unwritable, warned);
    png_infop info = png ? png_create_info_struct(png) : NULL;
    uint8_t *row = (uint8_t *)lent(picture->width, 6, out->name);
    if (!info) fail(STATUS_UNABLE, "%s: there is not enough memory for it", out->name);
    png_set_write_fn(png, out, write_bytes, flush);
    png_set_IHDR(png, info, (png_uint_32)picture->width, (png_uint_32)picture->height, picture->bits,
                 picture->channels == 3 ? PNG_COLOR_TYPE_RGB : PNG_COLOR_TYPE_GRAY, PNG_INTERLACE_NONE, PNG_COMPRESSION_TYPE_DEFAULT, PNG_FILTER_TYPE_DEFAULT);
    png_write_info(png, info);
    progress_begin("writing");
    for (size_t y = 0; y < picture->height; y++) {
        put_row(png, picture, y, row);
        progress(y, picture->height);
    }
    progress_end();
    png_write_end(png, info);
    png_destroy_write_struct(&png, &info);
    free(row);
}
