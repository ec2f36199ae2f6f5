/* The filter of a table, given on the command line: 0 the 5/3, 1 the integer 9/7. Each table is at the most levels that its filter has. */
#ifndef FILTER_H
#define FILTER_H
#include "../include/terrain.h"

#ifndef FILTER
#define FILTER 0
#endif

#if FILTER == 0
enum { LEVELS = 5 };
#else
enum { LEVELS = 4 };
#endif

/* A map of that size by the table's filter. */
static inline terrain_shape shape_of(size_t width, size_t height)
{
    terrain_shape shape = terrain_shape_of(width, height, LEVELS);
    shape.filter = FILTER;
    return shape;
}

#endif
