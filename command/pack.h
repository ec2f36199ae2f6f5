/* How many bytes a packer makes of rows of coefficients, in the short form of examples/coefficients.h. pack_deflate.c has zlib's deflate, which libpng comes
 * with; pack_none.c is for a program without it, and measures nothing. */
#ifndef PACK_H
#define PACK_H

#include <stddef.h>
#include <stdint.h>

typedef struct Packing Packing;

/* NULL: this program has no packer. */
Packing *pack_begin(const char *name);

void pack_row(Packing *packing, const int32_t *row, size_t length);

/* The bytes of all rows. */
uint64_t pack_end(Packing *packing);

#endif
