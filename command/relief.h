/* Ground as people see it: hill shading, lit from the upper left. */
#ifndef RELIEF_H
#define RELIEF_H

#include "png_file.h"

enum { RELIEF_GREY, RELIEF_COLOUR };

/* A picture of 8 bits in three channels; a small map is drawn larger, with the ground between its heights smooth. In colour a tint says how high the
 * ground is; in grey it is dim, as a background. */
Picture relief(const char *name, const Map *map, int tint);

#endif
