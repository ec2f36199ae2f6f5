/* Where two maps of one size differ, and by how much. */
#ifndef DIFFERENCES_H
#define DIFFERENCES_H

#include "map.h"
#include "png_file.h"

typedef struct {
    uint64_t count, raised; /* heights that differ, and those of them that are higher in the second map */
    uint64_t sum;           /* of all differences, by size */
    size_t first, largest;  /* places */
    int most;               /* the largest difference, by size */
} Differences;

/* How much higher the second map is at a place. */
int difference(const Map *a, const Map *b, size_t i);

Differences differences_of(const Map *a, const Map *b);

/* The ground of the first map in grey, and on it what differs: red where the second map is higher, blue where it is lower. */
Picture picture_of_differences(const char *name, const Map *a, const Map *b, const Differences *d);

#endif
