/* The one fixed form of a map: P5, width, height, 65535 and two bytes a height, by the library's calls. Equal maps, and only they, have equal bytes. */
#ifndef FORM_H
#define FORM_H

#include "map.h"
#include "output.h"

/* Where bytes go. */
typedef void PutBytes(void *to, const void *bytes, size_t count);

void form_bytes(const Map *map, PutBytes *put, void *to);

/* The same in parts, for heights that come row by row: what stands before them, and a row; `bytes` has room for two a height. */
void form_head(size_t width, size_t height, PutBytes *put, void *to);
void form_row(const uint16_t *heights, size_t width, uint8_t *bytes, PutBytes *put, void *to);

/* Bytes that go to an output. */
void put_output(void *out, const void *bytes, size_t count);

void form_write(Output *out, const Map *map);

/* Whether a name ends in that, in either case. */
int ends_in(const char *path, const char *ending);

#endif
