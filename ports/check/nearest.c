/* The nearest change of cells of random maps, cells outside, sizes and areas that are turned away. */
#include "common.h"

void nearest_changes(void)
{
    terrain_shape s = any_shape();
    uint32_t n = s.width <= 60 && s.height <= 70 ? (uint32_t)(s.width * s.height) : 100;
    uint32_t room = below(12) ? n + below(3) : below(n + 1);
    fill(heights, n + 2);
    for (int i = 0; i < 8; i++) {
        uint64_t change[3] = {9, 9, 9};
        uint32_t row = below(36), column = below(31);
        say(terrain_nearest_change(heights, room, s.width, s.height, row, column, change));
        add64(change, 3);
    }
}
