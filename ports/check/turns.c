/* A turn-giver for sixteen readers: marks, clears and turns in any order, numbers of no reader, arrays that somebody scribbled in. */
#include "common.h"

void turn_givers(void)
{
    uint64_t turns[TERRAIN_TURNS_LENGTH] = {5, 5, 5, 5};
    say(terrain_turns_set_up(turns));
    int scribbled = !below(4);
    for (int i = 0; i < 60; i++) {
        size_t reader = below(8) ? below(TERRAIN_READERS) : (size_t)(any_number() >> 32);
        uint32_t which = below(4);
        if (scribbled && !below(10)) scribble(turns, TERRAIN_TURNS_LENGTH, 0);
        if (which == 0) say(terrain_turns_mark(turns, reader));
        if (which == 1) say(terrain_turns_clear(turns, reader));
        if (which > 1) say(terrain_turns_give(turns, &reader)), add((uint64_t)reader);
        add64(turns, TERRAIN_TURNS_LENGTH);
    }
}
