/* A height map in memory, and how one is read: PGM, a ground file, or PNG where the program was built with libpng. */
#ifndef MAP_H
#define MAP_H

#include <stddef.h>
#include <stdint.h>

#include "../examples/pgm_scan.h"
#include "input.h"

typedef struct {
    size_t width, height;
    uint16_t most;     /* the largest height that its file could name: 255 or less of 8 bits */
    uint16_t *heights; /* row by row */
} Map;

enum { ANY_SIZE = 1 << 30 };

/* The map in a file, or the end with what was found and where. `most` is the widest that the command takes, TERRAIN_MAX_WIDTH or ANY_SIZE. */
Map map_read(const char *path, size_t most);

/* The same from an input that is open. */
Map map_from(Input *in, size_t most);

/* Room for a map of that size. */
Map map_of(const char *name, uint64_t width, uint64_t height);

/* A map that the library's calls can take, or the end. */
void map_fits(const char *name, uint64_t width, size_t most);

/* What an input that begins with these bytes is called ("a PNG"), or NULL: nothing that is known. */
const char *kind_of(const uint8_t *bytes, size_t length);

/* A sentence that says what an input is that is plainly no PGM, or NULL. */
const char *no_pgm(Input *in);

#endif
