/* Pictures: their size, their names, their files. */
#include "picture.h"

#include "end.h"
#include "form.h"

Picture picture_of(const char *name, size_t width, size_t height, int channels, int bits)
{
    Picture picture = {width, height, channels, bits, (uint16_t *)lent(width * height, 2 * (unsigned)channels, name)};
    return picture;
}

size_t pixels_of(size_t width, size_t height, size_t side, size_t most)
{
    size_t longer = width > height ? width : height;
    return longer >= side ? 1 : side / longer > most ? most : side / longer;
}

void picture_named(const char *path)
{
    if (ends_in(path, ".png") || ends_in(path, ".pgm") || output_is_stream(path)) return;
    fail(STATUS_USAGE, "%s: a picture is written as .png or .pgm, and the name ends in neither", path);
}

void png_named(const char *path)
{
    if (ends_in(path, ".png") || output_is_stream(path)) return;
    fail(STATUS_USAGE, "%s: the picture is written as .png, and the name does not end so", path);
}

Output picture_open(const char *path)
{
    if (was_input(path)) fail(STATUS_USAGE, "%s: the picture would be written over the map", path);
    return output_open(path);
}

void picture_write(Output *out, const Picture *picture)
{
    Map greys = {picture->width, picture->height, 65535, picture->samples};
    if (ends_in(out->name, ".pgm")) form_write(out, &greys);
    else png_write(out, picture);
}
