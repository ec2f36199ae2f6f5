/* RAW: heights of 16 bits one after the other and nothing else, as Unity, Unreal, World Machine and Gaea write them. The file does not say its size or its
 * byte order. */
#ifndef RAW_H
#define RAW_H

#include "map.h"
#include "output.h"

enum { LITTLE, BIG }; /* the least or the most significant byte first */

/* `size` is WIDTHxHEIGHT, or NULL: a square. */
Map raw_read(Input *in, const char *size, int order);

void raw_write(Output *out, const Map *map, int order);

#endif
