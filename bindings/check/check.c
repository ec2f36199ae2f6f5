/* Some maps through every binding's way: whole map, profile, writer, readers, runs of them, ground files. One hash, which the checks of
   the other languages must print too. */
#include "terrain.h"
#include <stdio.h>
#include <stdlib.h>
#include <string.h>

enum { MAPS = 60, MOST = 1200, LONGEST = 64, MOST_ROWS = 8, FILE_ROOM = 8 * MOST };
static uint64_t seed = 7, hash = 0xcbf29ce484222325u;
static uint16_t heights[MOST], back[MOST];
static int32_t plane[MOST], work[MOST], in_order[MOST], values[LONGEST], store[TERRAIN_MAX_STORE_LENGTH];
static uint8_t file[FILE_ROOM];
static size_t fed, file_length;
static float smooth[LONGEST];

static uint32_t below(uint32_t n)
{
    uint64_t z = seed += 0x9e3779b97f4a7c15u;
    z = (z ^ (z >> 30)) * 0xbf58476d1ce4e5b9u;
    z = (z ^ (z >> 27)) * 0x94d049bb133111ebu;
    return (uint32_t)(((z ^ (z >> 31)) >> 32) * n >> 32);
}

static void add(uint64_t value) { hash = (hash ^ value) * 0x100000001b3u; }

static void passed(uint32_t answer)
{
    if (answer) printf("%s\n", terrain_sentence(answer)), exit(1);
}

static terrain_shape some_shape(void)
{
    terrain_shape s = {0, 0, 0, 0, 0, 0};
    s.width = 1 + below(40);
    s.height = 1 + below(30);
    s.filter = below(2);
    s.levels = 1 + below(5 - s.filter);
    s.x = (uint16_t)below(65536);
    s.y = (uint16_t)below(65536);
    return s;
}

static void whole_map(terrain_shape s, size_t n)
{
    for (size_t i = 0; i < n; i++) heights[i] = (uint16_t)below(65536);
    passed(terrain_map_forward(heights, n, s, plane, n, work, n));
    for (size_t i = 0; i < n; i++) add((uint32_t)plane[i]);
    passed(terrain_map_backward(plane, n, s, back, n, work, n));
    for (size_t i = 0; i < n; i++) add(back[i]);
    passed(terrain_profile(heights, s.width, smooth, LONGEST));
    for (size_t i = 0; i < s.width; i++) {
        uint32_t bits;
        memcpy(&bits, &smooth[i], sizeof bits);
        add(bits);
    }
}

static void drawn(uint64_t *state, size_t room)
{
    uint64_t row[4] = {1, 0, 0, 0};
    while (row[0]) {
        passed(terrain_writer_draw(state, store, room, values, LONGEST, row));
        for (int i = 0; i < 3 && row[0]; i++) add(row[i]);
        for (uint64_t i = 0; i < row[3]; i++) add((uint32_t)values[i]);
    }
}

static void written(terrain_shape s, size_t n)
{
    uint64_t state[16];
    size_t room = terrain_store_length(s), taken = 0;
    passed(terrain_writer_set_up(state, s, store, room));
    for (size_t at = 0; at < n; at += taken) {
        size_t run = 1 + below((uint32_t)(n - at));
        passed(terrain_writer_offer(state, store, room, heights + at, run, &taken));
        add(taken);
        drawn(state, room);
    }
    passed(terrain_writer_finish(state, store, room));
    drawn(state, room);
}

static void read_on(uint64_t *state, terrain_shape s, size_t n)
{
    uint64_t want[5] = {0};
    size_t room = terrain_store_length(s), start = 0, length = 0;
    for (fed = 0;;) {
        passed(terrain_reader_want(state, want));
        add(want[0]);
        if (want[0] > 1) return;
        if (want[0] == 0) {
            passed(terrain_band_row(n, s, (size_t)want[1], (size_t)want[2], (size_t)want[3], &start, &length));
            passed(terrain_reader_feed(state, store, room, plane + start, length));
            memcpy(in_order + fed, plane + start, length * sizeof *plane), fed += length;
        } else {
            passed(terrain_reader_draw(state, store, room, back, LONGEST, &length));
            for (size_t i = 0; i < length; i++) add(back[i]);
        }
    }
}

static void read_back(terrain_shape s, size_t n)
{
    uint64_t state[16];
    passed(terrain_reader_set_up(state, s, store, terrain_store_length(s)));
    read_on(state, s, n);
}

static void read_far(terrain_shape s, size_t n, size_t stop)
{
    uint64_t state[16];
    size_t columns = 0, rows = 0;
    passed(terrain_level_size(s, stop, &columns, &rows));
    add(columns), add(rows);
    passed(terrain_reader_set_up_at(state, s, stop, store, terrain_store_length(s)));
    read_on(state, s, n);
}

/* the writer's run, with room for a few rows, once before and once after the finish */
static void run_on(uint64_t *state, size_t room, size_t *at, size_t n)
{
    uint64_t names[4 * MOST_ROWS], counts[3] = {0, 1, 0};
    while (*at < n || counts[1]) {
        size_t run = *at < n ? 1 + below((uint32_t)(n - *at)) : 0, rows = 1 + below(MOST_ROWS);
        passed(terrain_writer_run(state, store, room, heights + *at, run, values, LONGEST, names, 4 * rows, counts));
        *at += (size_t)counts[0];
        for (int i = 0; i < 3; i++) add(counts[i]);
        for (size_t i = 0; i < 4 * counts[1]; i++) add(names[i]);
        for (size_t i = 0; i < counts[2]; i++) add((uint32_t)values[i]);
    }
}

static void written_by_runs(terrain_shape s, size_t n)
{
    uint64_t state[16];
    size_t room = terrain_store_length(s), at = 0;
    passed(terrain_writer_set_up(state, s, store, room));
    run_on(state, room, &at, n);
    passed(terrain_writer_finish(state, store, room));
    run_on(state, room, &at, n);
}

/* the rows of the plane, in the order in which the last reader was fed them */
static void read_by_runs(terrain_shape s, size_t n)
{
    uint64_t state[16], counts[2] = {0, 0};
    size_t room = terrain_store_length(s), at = 0, drawn = 0;
    passed(terrain_reader_set_up(state, s, store, room));
    while (drawn < s.height) {
        size_t rows = 1 + below(3);
        passed(terrain_reader_run(state, store, room, in_order + at, n - at, back, rows * s.width, counts));
        at += (size_t)counts[0], drawn += (size_t)counts[1];
        add(counts[0]), add(counts[1]);
        for (size_t i = 0; i < counts[1] * s.width; i++) add(back[i]);
    }
}

/* the plane as a ground file, in areas of any lengths */
static void saved(terrain_shape s, size_t n, size_t step)
{
    uint64_t saver[TERRAIN_SAVER_LENGTH];
    size_t written = 1;
    passed(terrain_save_set_up(saver, s, step));
    for (file_length = 0; written; file_length += written) {
        size_t room = 1 + below(40);
        passed(terrain_save(saver, plane, n, file + file_length, room, &written));
        for (size_t i = 0; i < written; i++) add(file[file_length + i]);
    }
}

/* the file through header and loader, in runs cut anywhere, up to what turns it away */
static uint32_t loaded(void)
{
    uint64_t loader[TERRAIN_LOADER_LENGTH], header[7];
    size_t at = 0, taken = 0, drawn = 0;
    uint32_t want = TERRAIN_WANT_BYTES, answer = terrain_file_header(file, file_length, header);
    if (answer) return answer;
    for (int i = 0; i < 7; i++) add(header[i]);
    terrain_shape s = terrain_header_shape(header);
    size_t room = terrain_reader_store_length(s);
    answer = terrain_load_set_up(loader, s, (size_t)header[6], store, room);
    while (!answer) {
        passed(terrain_load_want(loader, &want));
        add(want);
        if (want > TERRAIN_WANT_DRAW || (want == TERRAIN_WANT_BYTES && at == file_length)) return 0;
        if (want == TERRAIN_WANT_BYTES) {
            size_t run = 1 + below((uint32_t)(file_length - at));
            answer = terrain_load_take(loader, store, room, work, MOST, file + at, run, &taken);
            if (!answer) at += taken, add(taken);
        } else {
            answer = terrain_load_draw(loader, store, room, back, LONGEST, &drawn);
            for (size_t i = 0; !answer && i < drawn; i++) add(back[i]);
        }
    }
    return answer;
}

/* as it is, and with one byte of its rows or its checksum changed */
static void ground_file(terrain_shape s, size_t n, size_t step)
{
    saved(s, n, step);
    add(loaded());
    size_t place = TERRAIN_HEADER_LENGTH + below((uint32_t)(file_length - TERRAIN_HEADER_LENGTH));
    file[place] ^= (uint8_t)(1 + below(255));
    add(loaded());
}

/* the map of that size from the origin by the 5/3, rounded, through a tolerant reader and a file */
static void read_rounded(terrain_shape s, size_t n, size_t step)
{
    uint64_t state[16];
    size_t bound = 0;
    s = terrain_shape_of(s.width, s.height, s.levels);
    passed(terrain_map_forward(heights, n, s, plane, n, work, n));
    passed(terrain_round(plane, n, s.width, s.height, s.levels, step));
    for (size_t i = 0; i < n; i++) add((uint32_t)plane[i]);
    passed(terrain_error_bound(s.levels, step, &bound));
    add(bound);
    passed(terrain_tolerant_set_up(state, s.width, s.height, s.levels, store, terrain_store_length(s)));
    read_on(state, s, n);
    ground_file(s, n, step);
}

int main(void)
{
    for (int i = 0; i < MAPS; i++) {
        terrain_shape s = some_shape();
        size_t n = s.width * s.height;
        whole_map(s, n);
        written(s, n);
        read_back(s, n);
        written_by_runs(s, n);
        read_by_runs(s, n);
        ground_file(s, n, 1);
        read_far(s, n, 1 + below((uint32_t)s.levels));
        read_rounded(s, n, 1 + below(64));
    }
    file[0]++;
    add(loaded());
    add(terrain_map_forward(heights, 1, terrain_shape_of(2050, 1, 1), plane, 1, work, 1));
    printf("%08lx%08lx\n", (unsigned long)(hash >> 32), (unsigned long)(hash & 0xffffffffu));
    return 0;
}
