/* Pictures as PNG (ISO/IEC 15948). png_libpng.c has these by libpng; png_stored.c writes without it, uncompressed, and reads none. */
#ifndef PNG_FILE_H
#define PNG_FILE_H

#include "map.h"
#include "output.h"

/* Samples row by row, one for a grey pixel, three for one in colour: red, green, blue. */
typedef struct {
    size_t width, height;
    int channels, bits; /* 1 or 3; 8 or 16 */
    uint16_t *samples;
} Picture;

/* The heights of a grey picture of 8 or 16 bits, as they stand, or the end. */
Map png_read(Input *in);

void png_write(Output *out, const Picture *picture);

/* Says which package is missing, and ends; nothing where PNG is read. */
void png_wanted(const char *name);

#endif
