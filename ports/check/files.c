/* Ground files: the worked cases of docs/FORMAT.md, planes saved into areas of any length, headers, and files loaded in runs cut anywhere: as they are,
   damaged with the checksum put right or not, cut short, by a loader of another shape, and with numbers scribbled in. */
#include "common.h"

enum { FILE_ROOM = 5 * ROOM + 64, MOST_CALLS = 3000, HEADER = TERRAIN_HEADER_LENGTH };
static uint8_t file[FILE_ROOM];
static uint32_t file_length;

static void add8(const uint8_t *area, size_t n)
{
    for (size_t i = 0; i < n; i++) add(area[i]);
}

/* the worked cases: heights, and the file that docs/FORMAT.md gives them */
typedef struct {
    uint32_t width, height, levels, step, length;
    uint16_t heights[17];
    uint8_t bytes[56];
} worked;

static const worked cases[3] = {
    {2, 2, 1, 1, 35, {0, 2, 1, 1}, {0x89, 0x47, 0x4e, 0x44, 0x0d, 0x0a, 0x1a, 0x0a, 1, 0, 1, 1, 0, 0, 0, 0, 2, 0, 2, 0, 0, 0, 0, 0,
                                    0x03, 0x04, 0x02, 0x02, 0x00, 0x02, 0x03, 0xec, 0xae, 0xf3, 0x63}},
    {1, 4, 2, 2, 35, {1, 4, 2, 7}, {0x89, 0x47, 0x4e, 0x44, 0x0d, 0x0a, 0x1a, 0x0a, 1, 0, 2, 2, 0, 0, 0, 0, 1, 0, 4, 0, 0, 0, 0, 0,
                                    0x04, 0x08, 0x00, 0x02, 0x02, 0x03, 0x04, 0xf5, 0x94, 0x38, 0x01}},
    {17, 1, 1, 1, 53, {0, 37, 148, 333, 592, 925, 332, 813, 368, 997, 700, 477, 328, 253, 252, 325, 472},
     {0x89, 0x47, 0x4e, 0x44, 0x0d, 0x0a, 0x1a, 0x0a, 1, 0, 1, 1, 0, 0, 0, 0, 17, 0, 1, 0, 0, 0, 0, 0, 0xab, 0x23, 0x20, 0x88, 0x5d, 0xd1, 0x08, 0x4b, 0x27,
      0xb3, 0x89, 0x3a, 0x8c, 0x03, 0x0a, 0x49, 0x24, 0xe1, 0xb9, 0xe7, 0x9e, 0x27, 0x91, 0x44, 0x12, 0xfb, 0x97, 0xd3, 0xec}},
};

/* the plane of the heights, rounded where the step is above 1 */
static void make_plane(terrain_shape s, size_t n, size_t step)
{
    say(terrain_map_forward(heights, n, s, plane, n, work, n));
    if (step > 1) say(terrain_round(plane, n, s.width, s.height, s.levels, step));
}

/* the file of the plane, in areas of up to `most` bytes; the last answer */
static uint32_t save(terrain_shape s, size_t n, size_t step, uint32_t most, int scribbled)
{
    uint64_t state[TERRAIN_SAVER_LENGTH] = {0};
    uint32_t said = terrain_save_set_up(state, s, step);
    say(said);
    file_length = 0;
    for (uint32_t calls = 0; !said && calls < MOST_CALLS; calls++) {
        size_t written = 777;
        uint32_t room = most < 64 ? below(most + 1) : most, before = file_length;
        if (room > FILE_ROOM - file_length) room = FILE_ROOM - file_length;
        if (scribbled && !below(20)) scribble(state, TERRAIN_SAVER_LENGTH, 0);
        said = terrain_save(state, plane, below(60) ? n : n - 1, file + file_length, room, &written);
        say(said);
        add((uint64_t)written);
        if (said == 5) said = 0;
        else if (!said) file_length += (uint32_t)written;
        add8(file + before, file_length - before);
        if (room && !written) break;
    }
    add64(state, TERRAIN_SAVER_LENGTH);
    return said;
}

/* the last four bytes, of those before them */
static void put_sum_right(void)
{
    uint64_t sum = 0;
    for (uint32_t i = 0; i + 4 < file_length; i++) sum = (sum << 8 | file[i]) % 4293501227u;
    for (uint32_t i = 0; i < 4; i++) file[file_length - 4 + i] = (uint8_t)(sum >> 8 * i);
}

static void damage(void)
{
    uint32_t kind = below(8);
    if (kind < 3 || file_length < HEADER + 5) return;
    uint32_t at = below(kind == 3 ? HEADER : file_length), by = 1 + below(255);
    file[at] = (uint8_t)(file[at] ^ by);
    if (kind > 5) put_sum_right();
    if (kind == 5) file_length -= 1 + below(5);
}

/* what is drawn goes into heights_back from its front on; how many */
static uint32_t load(terrain_shape s, size_t step, int scribbled)
{
    uint64_t state[TERRAIN_LOADER_LENGTH] = {0};
    uint32_t needed = (uint32_t)terrain_reader_store_length(s), lent = below(20) || !needed ? needed + below(3) : needed - 1, at = 0, heights_drawn = 0;
    uint32_t across = (uint32_t)(s.width <= TERRAIN_MAX_WIDTH ? s.width + 1 : 2) / 2, width = (uint32_t)(s.width <= TERRAIN_MAX_WIDTH ? s.width : 1);
    for (uint32_t i = 0; i < needed + 3; i++) store[i] = (int32_t)i;
    uint32_t said = terrain_load_set_up(state, s, step, store, lent);
    say(said);
    for (uint32_t calls = 0; !said && calls < MOST_CALLS; calls++) {
        uint32_t want = 88;
        size_t taken = 888, drawn = 8888;
        if (scribbled && !below(40)) scribble(state, TERRAIN_LOADER_LENGTH, needed);
        say(terrain_load_want(state, &want));
        add(want);
        if (want != TERRAIN_WANT_DRAW || !below(15)) {
            uint32_t run = below(4) ? below(60) : file_length - at;
            if (run > file_length - at) run = file_length - at;
            said = terrain_load_take(state, store, lent, out, below(60) ? across : across - 1, file + at, run, &taken);
            say(said);
            add((uint64_t)taken);
            if (!said) at += (uint32_t)taken;
            if (said == 5 || said == 8) said = 0;
            if (!said && at == file_length && want != TERRAIN_WANT_DRAW && below(2)) break;
        }
        if (want == TERRAIN_WANT_DRAW || !below(15)) {
            if (heights_drawn > ROOM - width) heights_drawn = 0;
            said = terrain_load_draw(state, store, lent, heights_back + heights_drawn, below(30) ? width : width - 1, &drawn);
            say(said);
            add((uint64_t)drawn);
            if (!said) add16(heights_back + heights_drawn, drawn), heights_drawn += (uint32_t)drawn;
            if (said == 12) said = 0;
        }
    }
    add64(state, TERRAIN_LOADER_LENGTH);
    add32(store, needed + 3);
    return heights_drawn;
}

static void header(void)
{
    uint64_t numbers[7] = {3, 3, 3, 3, 3, 3, 3};
    uint32_t length = below(9) ? file_length : below(HEADER + 2);
    say(terrain_file_header(file, length < file_length ? length : file_length, numbers));
    add64(numbers, 7);
}

static void one_case(const worked *c)
{
    terrain_shape s = terrain_shape_of(c->width, c->height, c->levels);
    uint32_t n = c->width * c->height, same = 1;
    for (uint32_t i = 0; i < n; i++) heights[i] = c->heights[i];
    make_plane(s, n, c->step);
    /* without a call of this one that is turned away, so that the bytes can be counted on */
    uint64_t state[TERRAIN_SAVER_LENGTH];
    size_t written = 0;
    say(terrain_save_set_up(state, s, c->step));
    say(terrain_save(state, plane, n, file, FILE_ROOM, &written));
    file_length = (uint32_t)written;
    for (uint32_t i = 0; i < c->length; i++)
        if (written != c->length || file[i] != c->bytes[i]) same = 0;
    count(same);
    header();
    load(s, c->step, 0);
}

static void any_file(int scribbled)
{
    terrain_shape s = any_shape(), other = s;
    size_t step = below(3) ? 1 : below(70);
    int passes = s.width && s.width <= 2049 && s.height && s.height <= 70 && s.width * s.height <= ROOM;
    uint32_t n = passes ? (uint32_t)(s.width * s.height) : 100;
    fill(heights, n);
    if (step > 1 && below(4)) s.x = s.y = 0, s.filter = 0;
    if (passes && s.filter < 2 && s.levels && s.levels <= 5 - s.filter) make_plane(s, n, step);
    else passes = 0;
    if (passes && !below(5)) spoil(n);
    uint32_t said = save(s, n, step, below(3) ? FILE_ROOM : 1 + below(63), scribbled);
    if (said || !file_length) return;
    damage();
    header();
    /* not in the call: compilers differ in which argument they take first */
    if (!below(12)) s = other;
    if (!below(12)) step = 1;
    uint32_t drawn = load(s, step, scribbled);
    add(drawn);
    for (uint32_t i = 0; i < drawn && i < n; i++) add(heights_back[i] == heights[i]);
}

void files(void)
{
    uint32_t which = below(40);
    if (which < 3) one_case(&cases[which]);
    else any_file(0);
}

void scribbled_files(void) { any_file(1); }
