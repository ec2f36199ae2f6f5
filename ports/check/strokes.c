/* Strokes on maps and on planes of no map: rectangles inside, at the ends, empty, leaving the map, and with sums that would wrap. */
#include "common.h"

static terrain_rectangle any_rectangle(terrain_shape s)
{
    terrain_rectangle r = {0, 0, 0, 0};
    uint32_t width = s.width && s.width < 3000 ? (uint32_t)s.width : 1, height = s.height && s.height < 3000 ? (uint32_t)s.height : 1;
    r.left = below(width);
    r.top = below(height);
    r.width = 1 + below(width - (uint32_t)r.left);
    r.height = 1 + below(height - (uint32_t)r.top);
    if (!below(12)) r.width = below(3) ? below(width + 2) : (size_t)0 - below(3);
    if (!below(12)) r.height = below(3) ? below(height + 2) : (size_t)0 - below(3);
    return r;
}

void strokes(void)
{
    terrain_shape s = any_shape();
    uint32_t shown = s.width <= 2049 && s.height <= 70 && s.width * s.height <= ROOM ? (uint32_t)(s.width * s.height) : 100;
    if (!shown) shown = 100;
    size_t room = below(9) ? shown : shown - 1;
    if (shown == 100) room = 100;
    terrain_rectangle r = any_rectangle(s);
    fill(heights, shown);
    for (uint32_t i = 0; i < shown; i++) plane[i] = any_word(), work[i] = -1;
    say(terrain_map_mend(heights, room, s.width, s.height, s.levels, r, plane, room, work, room));
    add32(plane, shown);
    add32(work, shown);
}
