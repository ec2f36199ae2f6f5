/* The plane of a map's coefficients by the 5/3, and what a reader makes of it. */
#ifndef PLANE_H
#define PLANE_H

#include <terrain.h>

#include "map.h"

typedef struct {
    const char *name; /* of the map */
    terrain_shape shape;
    size_t count; /* coefficients */
    int32_t *numbers;
} Plane;

/* A reader of a plane, to be set up by whoever has it. */
typedef struct {
    uint64_t state[TERRAIN_STATE_LENGTH];
    int32_t *store;
    size_t store_len;
} Reading;

/* Who looks at each band row that is fed. */
typedef void LookAtRow(void *to, const int32_t *row, size_t length);

/* A call that was not turned away, or the end. */
void passed(const char *name, uint32_t no);

Plane plane_of(const char *name, const Map *map, size_t levels);

Reading reading_of(const Plane *p);

/* Feeds the reader as it wants until it is Done; what it draws is the ground, row by row. The store is given back. */
void plane_read(const Plane *p, Reading *reading, Map *ground, LookAtRow *look, void *to);

#endif
