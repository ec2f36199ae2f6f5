/* Pictures that commands make: room for one, how large it is drawn, and its file, PNG or PGM by the ending of its name. */
#ifndef PICTURE_H
#define PICTURE_H

#include "png_file.h"

Picture picture_of(const char *name, size_t width, size_t height, int channels, int bits);

/* A small map's heights are squares, so that its longer side has about so many pixels: the side of a square, up to `most`. */
size_t pixels_of(size_t width, size_t height, size_t side, size_t most);

/* A picture can have this name, or the end. A grey one may be a PGM. */
void picture_named(const char *path);

/* For a picture in colour: a PNG, or the end. */
void png_named(const char *path);

/* Where it goes, which is not the file of a map that it was made of, or the end. */
Output picture_open(const char *path);

void picture_write(Output *out, const Picture *picture);

#endif
