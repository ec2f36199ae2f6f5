/* Planes rounded, of maps and of any words, by steps inside and outside of 1 to 64; and the figure. */
#include "common.h"

void roundings(void)
{
    terrain_shape s = any_shape();
    uint32_t shown = s.width <= 2049 && s.height <= 70 && s.width * s.height <= ROOM ? (uint32_t)(s.width * s.height) : 100;
    if (!shown) shown = 100;
    size_t room = below(9) ? shown : shown - 1, step = below(9) ? 1 + below(64) : below(70), bound = 77;
    for (uint32_t i = 0; i < shown; i++) plane[i] = any_word();
    say(terrain_round(plane, room, s.width, s.height, s.levels, step));
    add32(plane, shown);
    size_t levels = below(7), other = below(68); /* not in the call: compilers differ in which argument they take first */
    say(terrain_error_bound(levels, other, &bound));
    add((uint64_t)bound);
}
