/* A map of any shape through the proved streams, a row at a time: into a plane, and from one. */
#ifndef STRIPS_H
#define STRIPS_H
#include "../include/terrain.h"

void strip_write(const uint16_t *heights, terrain_shape map, int32_t *plane);
void strip_read(const int32_t *plane, terrain_shape map, uint16_t *heights);

#endif
