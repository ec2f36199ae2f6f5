/* Many rows at once: a writer's runs with little room, single calls among them, its rows put where they stand in the plane; then the rows in the reader's
   order through its runs. Every so often a run that is turned away: too short an area, out of turn, after the end. */
#include "common.h"

enum { MOST_CALLS = 4000, MOST_NAMES = 24, LONGEST_ROW = 1100 };
static int32_t in_order[ROOM];

static int put_rows(terrain_shape s, size_t total, const uint64_t *names, const uint64_t counts[3])
{
    size_t at = 0;
    for (uint64_t i = 0; i < counts[1]; i++) {
        size_t start = 0, length = 0;
        const uint64_t *name = names + 4 * i;
        say(terrain_band_row(total, s, (size_t)name[0], (size_t)name[1], (size_t)name[2], &start, &length));
        if (length != name[3]) return 0;
        for (size_t k = 0; k < length; k++) plane[start + k] = out[at + k];
        at += length;
    }
    return at == counts[2];
}

/* whether all rows of the map were put */
static int write_runs(terrain_shape s, uint32_t total, uint32_t room)
{
    uint64_t state[16], names[MOST_NAMES], counts[3];
    uint32_t at = 0, finished = 0;
    say(terrain_writer_set_up(state, s, store, room));
    for (uint32_t calls = 0; calls < MOST_CALLS; calls++) {
        uint32_t run = below(4) ? below(3 * (uint32_t)s.width) : total - at, space = below(20) ? LONGEST_ROW + below(900) : below(20);
        uint32_t names_room = below(20) ? 4 + below(MOST_NAMES - 3) : below(5);
        if (run > total - at) run = total - at;
        counts[0] = counts[1] = counts[2] = 99;
        uint32_t said = terrain_writer_run(state, store, below(50) ? room : room - 1, heights + at, run, out, space, names, names_room, counts);
        say(said);
        add64(counts, 3);
        if (said == 5 || said == 12) continue;
        if (said) return 0;
        add64(names, 4 * counts[1]);
        add32(out, (size_t)counts[2]);
        if (!put_rows(s, total, names, counts)) return 0;
        at += (uint32_t)counts[0];
        if (at < total || run || counts[1]) {
            size_t taken = 9;
            if (at < total && !below(5)) say(terrain_writer_offer(state, store, room, heights + at, 1, &taken)), at += (uint32_t)taken;
            continue;
        }
        if (finished) break;
        finished = 1;
        say(terrain_writer_finish(state, store, room));
        if (!below(4)) say(terrain_writer_run(state, store, room, heights, 1, out, space, names, names_room, counts));
    }
    add64(state, 16);
    add32(store, room);
    return (int)finished;
}

/* the plane's rows in the order in which a reader wants them; how many numbers */
static uint32_t put_in_order(terrain_shape s, uint32_t total, uint32_t room)
{
    uint64_t state[16], want[5];
    uint32_t fed = 0;
    size_t start = 0, length = 0;
    if (terrain_reader_set_up(state, s, store, room)) return 0;
    for (;;) {
        uint32_t said = terrain_reader_want(state, want);
        if (said || want[0] > TERRAIN_WANT_DRAW) return fed;
        if (want[0] == TERRAIN_WANT_ROW) {
            if (terrain_band_row(total, s, (size_t)want[1], (size_t)want[2], (size_t)want[3], &start, &length)) return fed;
            for (size_t i = 0; i < length; i++) in_order[fed++] = plane[start + i];
            said = terrain_reader_feed(state, store, room, plane + start, length);
        } else {
            said = terrain_reader_draw(state, store, room, heights_back, (size_t)s.width, &length);
        }
        if (said) return fed;
    }
}

static uint32_t read_runs(terrain_shape s, uint32_t total, uint32_t room)
{
    uint64_t state[16], counts[2];
    uint32_t at = 0, rows = 0, fed = put_in_order(s, total, room), width = (uint32_t)s.width, same = 1;
    say(terrain_reader_set_up(state, s, store, room));
    if (!below(6) && fed) {
        uint32_t wrong = below(fed);
        in_order[wrong] = any_word();
    }
    for (uint32_t calls = 0; calls < MOST_CALLS; calls++) {
        uint32_t run = below(4) ? below(4 * width + 8) : fed - at, space = below(20) ? width * (1 + below(3)) : below(width);
        if (run > fed - at) run = fed - at;
        if (space > ROOM - 1) space = ROOM - 1;
        counts[0] = counts[1] = 99;
        uint32_t said = terrain_reader_run(state, store, below(50) ? room : room - 1, in_order + at, run, heights_back, space, counts);
        say(said);
        add64(counts, 2);
        if (said == 5 || said == 12 || said == 13) continue;
        if (said) break;
        for (uint32_t i = 0; i < counts[1] * width; i++) {
            add(heights_back[i]);
            if (rows * width + i >= total || heights_back[i] != heights[rows * width + i]) same = 0;
        }
        at += (uint32_t)counts[0], rows += (uint32_t)counts[1];
        if (at == fed && !counts[1]) break;
    }
    add64(state, 16);
    return same;
}

void runs(void)
{
    terrain_shape s = any_shape();
    uint32_t room = (uint32_t)terrain_store_length(s);
    uint64_t state[16];
    if (!room) {
        say(terrain_writer_set_up(state, s, store, room));
        return;
    }
    s.height = s.height <= 70 && s.height ? s.height : 3;
    if (s.height * s.width > ROOM) s.height = 1;
    uint32_t total = (uint32_t)(s.height * s.width), equal = 1;
    fill(heights, total);
    for (uint32_t i = 0; i < total; i++) plane[i] = 0;
    if (write_runs(s, total, room)) {
        for (uint32_t i = 0; i < total; i++) work[i] = 0, out[i] = 7;
        say(terrain_map_forward(heights, total, s, out, total, work, total));
        for (uint32_t i = 0; i < total; i++)
            if (out[i] != plane[i]) equal = 0;
        count(equal);
    }
    add(read_runs(s, total, room));
}
