/* Whole maps by the proved calls. */
#include "../include/terrain.h"
#include "maps.h"
#include <stdlib.h>

void proved_forward(const uint16_t *heights, size_t W, size_t H, int32_t *plane, int32_t *work)
{
    if (terrain_map_forward(heights, W * H, shape_of(W, H), plane, W * H, work, W * H)) exit(1);
}

void proved_backward(const int32_t *plane, size_t W, size_t H, uint16_t *heights, int32_t *work)
{
    if (terrain_map_backward(plane, W * H, shape_of(W, H), heights, W * H, work, W * H)) exit(1);
}
