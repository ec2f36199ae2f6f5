/* A writer over a map of some rows, its runs cut anywhere, its rows put where they stand in the plane; then that plane to a reader, in the reader's order.
   Every so often a call that is turned away: out of turn, too short an area, too long a run, after the end. */
#include "common.h"

enum { MOST_CALLS = 20000, LONGEST_ROW = 1100 };

typedef struct {
    terrain_shape shape; /* of the rows that are offered */
    uint64_t state[16];
    uint32_t needed, room, total; /* the store's need, what is lent of it, heights of the map */
    int scribbled;                /* somebody writes into state and store now and then */
    uint32_t calls;
} stream;

static int may_go_on(stream *s)
{
    if (s->scribbled && !below(50)) scribble(s->state, 16, s->needed);
    return s->calls++ < MOST_CALLS;
}

static int set_up(stream *s)
{
    s->shape = any_shape();
    for (uint32_t i = 0; i < sizeof store / sizeof *store; i++) store[i] = (int32_t)i;
    s->needed = (uint32_t)terrain_store_length(s->shape);
    s->room = below(15) || !s->needed ? s->needed + below(3) : s->needed - 1;
    uint32_t said = terrain_writer_set_up(s->state, s->shape, store, s->room);
    add(s->needed);
    say(said);
    add64(s->state, 16);
    add32(store, s->needed + 3);
    if (said) return 0;
    uint32_t rows = s->shape.height <= 70 && s->shape.height ? (uint32_t)s->shape.height : 3;
    if (rows * s->shape.width > ROOM) rows = 1;
    s->shape.height = rows;
    s->total = rows * (uint32_t)s->shape.width;
    fill(heights, s->total);
    for (uint32_t i = 0; i < s->total; i++) plane[i] = 0;
    return 1;
}

/* the row that waits into its place in the plane; whether one was drawn */
static int draw(stream *s)
{
    uint64_t row[4] = {9, 9, 9, 9};
    say(terrain_writer_waits(s->state, row));
    add64(row, 4);
    uint32_t space = below(30) ? LONGEST_ROW : below(20);
    for (uint32_t i = 0; i < 30; i++) out[i] = -5;
    uint32_t said = terrain_writer_draw(s->state, store, s->room, out, space, row);
    say(said);
    add64(row, 4);
    if (said) return said == 12;
    uint32_t length = row[3] < LONGEST_ROW ? (uint32_t)row[3] : LONGEST_ROW;
    if (!row[0]) return 0;
    add32(out, length);
    size_t start = 0, count = 0;
    uint32_t where = terrain_band_row(s->total, s->shape, (size_t)row[0], (size_t)row[1], (size_t)row[2], &start, &count);
    say(where);
    if (!where && count == length)
        for (uint32_t i = 0; i < length; i++) plane[start + i] = out[i];
    return 1;
}

/* offers out of turn or after the finish, and a finish out of turn */
static void out_of_turn(stream *s)
{
    size_t taken = 12345;
    if (below(2)) say(terrain_writer_offer(s->state, store, s->room, heights, below(3), &taken));
    else say(terrain_writer_finish(s->state, store, below(4) ? s->room : below(s->room + 1)));
    add((uint64_t)taken);
}

/* the next heights, some of them while rows wait; what was answered */
static uint32_t offer(stream *s, uint32_t *at)
{
    size_t taken = 12345;
    uint32_t run = below(3) ? below(2 * (uint32_t)s->shape.width + 2) : s->total - *at;
    if (run > s->total - *at) run = s->total - *at;
    uint32_t said = terrain_writer_offer(s->state, store, s->room, heights + *at, run, &taken);
    add((uint64_t)taken);
    if (!said) *at += (uint32_t)taken;
    return said;
}

/* whether all of the map was offered and the finish passed */
static int write_map(stream *s)
{
    uint32_t at = 0;
    int finished = 0;
    while (may_go_on(s)) {
        if (finished && !below(3)) out_of_turn(s);
        if (draw(s)) {
            /* a row may still wait: what is offered now goes into the spare row */
            if (at < s->total && !below(3)) say(offer(s, &at));
            continue;
        }
        if (finished) return 1;
        uint32_t said;
        if (at < s->total) {
            said = offer(s, &at);
            if (!said && below(4) == 0) say(terrain_writer_finish(s->state, store, s->room)), add64(s->state, 16);
        } else {
            said = terrain_writer_finish(s->state, store, s->room);
            finished = !said;
        }
        say(said);
        if (said == 1 || said == 9 || said == 10 || said == 11 || at > s->total) return 0;
    }
    return 0;
}

/* whether the plane is the whole map's */
static uint64_t compare_map(stream *s)
{
    for (uint32_t i = 0; i < s->total; i++) work[i] = 3, out[i] = 7;
    say(terrain_map_forward(heights, s->total, s->shape, out, s->total, work, s->total));
    uint64_t equal = 1;
    for (uint32_t i = 0; i < s->total; i++)
        if (plane[i] != out[i]) equal = 0;
    add(equal);
    return equal;
}

static uint32_t feed(stream *s, const uint64_t want[5])
{
    size_t start = 0, count = 0;
    uint32_t said = terrain_band_row(s->total, s->shape, (size_t)want[1], (size_t)want[2], (size_t)want[3], &start, &count);
    say(said);
    if (said) return said;
    if (!below(50)) count = count - 1;
    said = terrain_reader_feed(s->state, store, s->room, plane + start, count);
    say(said);
    return said == 13 ? 0 : said;
}

static uint32_t draw_heights(stream *s)
{
    size_t drawn = 4321;
    uint32_t width = (uint32_t)s->shape.width, space = below(40) ? width + below(2) : below(width + 1);
    if (!below(20)) say(terrain_reader_feed(s->state, store, s->room, plane, 1));
    for (uint32_t i = 0; i < width; i++) heights_back[i] = 0x5555;
    uint32_t said = terrain_reader_draw(s->state, store, s->room, heights_back, space, &drawn);
    say(said);
    add((uint64_t)drawn);
    add16(heights_back, width);
    return said == 12 ? 0 : said;
}

static void read_on(stream *s, uint32_t said)
{
    uint64_t want[5] = {8, 8, 8, 8, 8};
    say(said);
    s->calls = 0;
    while (!said && may_go_on(s)) {
        said = terrain_reader_want(s->state, want);
        say(said);
        add64(want, 5);
        if (said || want[0] > 1) break;
        said = want[0] == 0 ? feed(s, want) : draw_heights(s);
    }
    /* once more after the end, whatever it was */
    say(terrain_reader_want(s->state, want));
    add64(want, 5);
    draw_heights(s);
    say(terrain_reader_feed(s->state, store, s->room, plane, 1));
    add64(s->state, 16);
    add32(store, s->needed + 3);
}

/* The plane of the map from the origin by the 5/3, rounded, and spoilt now and then, through a tolerant reader. */
static void read_rounded(stream *s)
{
    size_t step = 1 + below(64);
    s->shape.x = s->shape.y = 0, s->shape.filter = 0;
    s->needed = (uint32_t)terrain_store_length(s->shape), s->room = s->needed + below(3);
    say(terrain_map_forward(heights, s->total, s->shape, plane, s->total, work, s->total));
    say(terrain_round(plane, s->total, s->shape.width, s->shape.height, s->shape.levels, step));
    if (!below(4)) spoil(s->total);
    read_on(s, terrain_tolerant_set_up(s->state, s->shape.width, s->shape.height, s->shape.levels, store, s->room));
}

static void one_stream(int scribbled)
{
    stream s = {{0, 0, 0, 0, 0, 0}, {0}, 0, 0, 0, scribbled, 0};
    if (!set_up(&s)) return;
    int finished = write_map(&s);
    add64(s.state, 16);
    add32(store, s.needed + 3);
    add32(plane, s.total);
    uint64_t equal = compare_map(&s);
    if (!scribbled && finished) count(equal);
    if (!below(4)) spoil(s.total);
    read_on(&s, terrain_reader_set_up(s.state, s.shape, store, s.room));
    uint32_t stop = 1 + below(5); /* not in the call: compilers differ in which argument they take first */
    read_on(&s, terrain_reader_set_up_at(s.state, s.shape, stop, store, s.room));
    read_rounded(&s);
}

void streams(void) { one_stream(0); }
void scribbled_streams(void) { one_stream(1); }

/* A writer that says it has all the rows but one or two that it may have: the numbers of the array as docs/STATE.md names them. */
void limits(void)
{
    terrain_shape s = {1 + below(6), 1, 1 + below(3), 0, (uint16_t)below(2), below(2)};
    uint64_t state[16] = {0};
    uint32_t room = (uint32_t)terrain_store_length(s);
    say(terrain_writer_set_up(state, s, store, room));
    state[3] = (uint64_t)TERRAIN_MAX_HEIGHT - below(3);
    for (int i = 0; i < 40; i++) {
        size_t taken = 55;
        uint64_t row[4] = {7, 7, 7, 7};
        uint32_t run = below(9);
        fill(heights, run);
        say(terrain_writer_offer(state, store, room, heights, run, &taken));
        add((uint64_t)taken);
        if (!below(6)) say(terrain_writer_finish(state, store, room));
        if (below(4)) say(terrain_writer_draw(state, store, room, out, 64, row));
        add64(row, 4);
        add64(state, 16);
    }
    add32(store, room);
}
