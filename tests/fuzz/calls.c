/* The C interface under a fuzzer. The input is a list of calls with their arguments, made on three streams, a turn-giver, on maps, lines and
 * rows; states and stores are scribbled in between. After each call: nothing outside the lent areas is touched (areas.h), a call turned away has changed
 * nothing, a number comes only where it may, 1 and 5 exactly where they must. Where a stream's calls went by the rules, its rows and heights
 * are those of a transform of its own (model.h). tests/fuzz/run builds and runs it. */
#define _DEFAULT_SOURCE
#include "areas.h"
#include "input.h"
#include "model.h"
#include "../../include/terrain.h"

enum { CAP = 4096, SLOTS = 3, STEPS = 500, RUN = 600, WRITER = 1, READER = 2 };
enum { ROW, DRAW, DONE, ENDED };

/* The answers that a call may give beside 0, 1 and 5. */
#define MAY(n) (1u << (n))

typedef struct {
    uint64_t state[16];
    int32_t *store;
    size_t store_len;
    int kind; /* WRITER, READER: all calls went by the rules. 0: anything may stand in state and store */
    Map on; /* what it was set up for */
    size_t stop; /* of a reader, and the level at which it stops; 0: none */
    size_t step; /* of a tolerant reader, and the step by which its plane was rounded; 0: it is a strict one */
    Order order;
    uint16_t heights[CAP]; /* taken or drawn */
    size_t count;
    Row rows[CAP]; /* drawn of a writer, with their values */
    size_t row_count, value_count;
    int32_t values[CAP], plane[CAP]; /* a reader is fed from this plane, which holds what it was fed */
    uint16_t map[CAP]; /* what is drawn of the map whose plane it was: its heights, or of a stop LL limited to heights */
    int pure; /* the plane is the map's */
} Slot;

static Slot slots[SLOTS];
static Area state_area, store_area, run_area, out_area, small_area, more_area;
static uint64_t *lent_state;
static int32_t *lent_store;
static size_t lent_len;

static int at_end(void)
{
    return byte() & 1;
}

/* A map of any shape, as a rule one that is taken. */
static Map any_map(void)
{
    Map m = { { 0, size() }, { 0, size() }, below(8) ? 1 + below(5) : number(), filter_number() };
    m.across.start = origin(), m.down.start = origin();
    return m;
}

static terrain_shape shape_of(const Map *m)
{
    terrain_shape shape = terrain_shape_of(m->across.length, m->down.length, m->levels);
    shape.x = (uint16_t)m->across.start, shape.y = (uint16_t)m->down.start, shape.filter = (uint32_t)m->filter;
    return shape;
}

/* ---- state and store */

/* The most heights that a writer counts: of the row begun, or, while rows wait, of the spare row. */
static uint64_t most_column(const uint64_t *s)
{
    return !s[7] ? s[1] - 1 : s[5] || s[3] >= MOST_HEIGHT ? 0 : s[1];
}

/* The map that a state's counts speak of; a writer has no height. */
static Map map_of(const uint64_t *s, int kind)
{
    if (kind == WRITER) return (Map){ { s[10], s[1] }, { s[11], 1 }, s[2], s[12] };
    return (Map){ { s[8], s[1] }, { s[9], s[2] }, s[3], s[11] };
}

/* Question 1 of a reader that stops and has no level left to work out; and what it asks of a stop of the others. */
static int last_fits(const uint64_t *s)
{
    return s[11] < FILTERS && s[1] <= MOST_WIDTH && s[2] <= MOST_HEIGHT && s[4] <= s[2] && !s[5] && s[6] <= 4 && s[7] <= 1 &&
           s[8] <= MOST_ORIGIN && s[9] <= MOST_ORIGIN && !s[10] && s[12] - 1 < filters[s[11]].levels && s[1] <= s[13];
}

static int stop_fits(const uint64_t *s)
{
    size_t most = filters[s[11]].levels, room = filters[s[11]].rows * MOST_WIDTH;
    return s[12] <= most - s[3] && s[13] <= (s[3] ? s[12] * room : 131136);
}

/* A tolerant reader reads a whole map from the origin by the 5/3, and is never ended. */
static int admission_fits(const uint64_t *s)
{
    return !s[14] || (s[14] == 1 && !s[7] && !s[8] && !s[9] && !s[11] && !s[12]);
}

/* Question 1, as docs/STATE.md has it. */
static int counts_fit(const uint64_t *s, int kind)
{
    Map m = map_of(s, kind);
    int rest = 1;
    for (int i = kind == WRITER ? 13 : 15; i < 16; i++) rest &= s[i] == 0;
    if (kind == READER && !admission_fits(s)) return 0;
    if (rest && kind == READER && s[0] == READER && !s[3]) return last_fits(s) && stop_fits(s);
    if (!rest || s[0] != (uint64_t)kind || streamable(&m) || m.across.start > MOST_ORIGIN || m.down.start > MOST_ORIGIN) return 0;
    size_t ahead = filters[m.filter].ahead;
    if (kind == WRITER)
        return s[3] <= MOST_HEIGHT && s[4] <= most_column(s) && s[5] <= 1 && s[6] <= ahead * s[2] && s[7] <= s[2] &&
               s[8] <= (!s[7] ? 0u : s[7] < s[2] ? 3u : 4u) && s[9] == (s[7] ? stretches(&m, s[7] - 1) : 0);
    return s[2] - 1 < MOST_HEIGHT && s[4] <= s[2] && s[5] <= s[3] && s[6] <= 4 && s[7] <= 1 && s[10] <= 2 * ahead - 1 && stop_fits(s);
}

/* Lends state and store, every so often a store cut short. */
static void lend(Slot *s)
{
    unsigned how = byte();
    size_t cut = how >= 224 ? how % 32 : 0;
    lent_len = s->store_len - (cut < s->store_len ? cut : s->store_len);
    lent_state = area_lend(&state_area, s->state, sizeof s->state, how & 1);
    lent_store = area_lend(&store_area, s->store, lent_len * sizeof *s->store, how & 2);
}

static void take_back(Slot *s)
{
    memcpy(s->state, lent_state, sizeof s->state);
    if (lent_len) memcpy(s->store, lent_store, lent_len * sizeof *s->store);
}

/* After a call on a stream: what it may have answered, and what it must have left. */
static void back(Slot *s, int kind, uint32_t answer, uint32_t may)
{
    int fit = counts_fit(s->state, kind);
    Map m = map_of(s->state, kind);
    size_t needed = !fit ? 0 : kind == WRITER ? model_writer_store(&m) : model_store(&m);
    area_back(&state_area);
    if (fit && kind == READER) needed += s->state[13]; /* the levels that a stop leaves out */
    area_back(&store_area);
    HOLDS(answer < 16 && ((may | MAY(0) | MAY(1) | MAY(5)) >> answer & 1));
    HOLDS((answer == 1) == !fit);
    HOLDS((answer == 5) == (fit && lent_len < needed));
    HOLDS(!s->state[14] || (answer != 9 && answer != 14));
    if (answer == 14) {
        uint64_t ended[16];
        memcpy(ended, s->state, sizeof ended);
        HOLDS(ended[7] == 0);
        ended[7] = 1;
        HOLDS(area_is(&state_area, ended));
        for (size_t i = 0; i < needed; i++) HOLDS(lent_store[i] == 0);
    } else if (answer) {
        HOLDS(area_is(&state_area, s->state) && area_is(&store_area, s->store));
    }
    if (lent_len > needed) HOLDS(memcmp(lent_store + needed, s->store + needed, (lent_len - needed) * sizeof *s->store) == 0);
    take_back(s);
}

static void new_store(Slot *s, size_t len)
{
    free(s->store);
    s->store_len = len;
    s->store = malloc(len * sizeof *s->store + !len);
    HOLDS(s->store);
    int32_t v = word();
    for (size_t i = 0; i < len; i++) s->store[i] = stored((int64_t)v + (int64_t)(i % 7));
}

/* The rows drawn are those of the map taken, or of any map that goes on from it. */
static void check_rows(const Slot *s)
{
    static uint16_t map[CAP + MOST_WIDTH];
    static int32_t plane[CAP + MOST_WIDTH];
    if (s->kind != WRITER || !s->count) return;
    Map m = s->on;
    m.down.length = (s->count + m.across.length - 1) / m.across.length;
    memset(map, 0x77, sizeof map);
    memcpy(map, s->heights, s->count * sizeof *map);
    model_forward(map, &m, plane);
    const int32_t *values = s->values;
    for (size_t i = 0; i < s->row_count; i++) {
        Row r = s->rows[i];
        HOLDS(memcmp(values, plane + place(&m, r.level, r.band, r.row), r.length * sizeof *values) == 0);
        values += r.length;
    }
}

/* What a stop hands out of a map. */
static void far_ground(const Map *m, size_t stop, uint16_t *heights)
{
    static int32_t plane[CAP], grid[CAP];
    Map own = *m;
    own.levels = stop;
    model_forward(heights, &own, plane);
    HOLDS(model_approximation(plane, &own, stop, grid) == 0);
    for (size_t i = 0; i < side(m->across, stop).length * side(m->down, stop).length; i++)
        heights[i] = (uint16_t)(grid[i] < 0 ? 0 : grid[i] > 65535 ? 65535 : grid[i]);
}

static void set_up(Slot *s, int kind)
{
    unsigned how = kind == READER ? below(3) : 0;
    int stops = how == 1, tolerant = how == 2;
    size_t stop = !stops ? 0 : below(8) ? 1 + below(5) : number(), step = tolerant ? 1 + below(64) : 0;
    check_rows(s);
    Map m = any_map();
    if (tolerant) m.across.start = m.down.start = m.filter = 0; /* it has neither */
    size_t h = m.down.length, needed = kind == WRITER ? model_writer_store(&m) : h > MOST_HEIGHT ? 0 : model_store(&m);
    unsigned more = byte();
    int32_t *old = s->store;
    size_t old_len = s->store_len;
    s->store = NULL;
    new_store(s, needed + (more < 200 ? more % 4 : 0) - (needed && more >= 240 ? 1 : 0));
    lend(s);
    uint32_t answer = stops ? terrain_reader_set_up_at(lent_state, shape_of(&m), stop, lent_store, lent_len)
                    : tolerant ? terrain_tolerant_set_up(lent_state, m.across.length, h, m.levels, lent_store, lent_len)
                            : (kind == WRITER ? terrain_writer_set_up : terrain_reader_set_up)(lent_state, shape_of(&m), lent_store, lent_len);
    area_back(&state_area);
    area_back(&store_area);
    uint32_t no = streamable(&m), first = no == 2 ? 2 : kind == READER && (h < 1 || h > MOST_HEIGHT) ? 3 : no ? no : 0;
    if (!first && stops && (stop < 1 || stop > m.levels)) first = 17;
    if (!first && lent_len < needed) first = 5;
    HOLDS(answer == first);
    HOLDS(!answer || (area_is(&state_area, s->state) && area_is(&store_area, s->store)));
    if (answer) { /* the stream that is under way goes on */
        free(s->store);
        s->store = old, s->store_len = old_len;
        return;
    }
    free(old);
    HOLDS(counts_fit(lent_state, kind));
    for (size_t i = 0; i < needed; i++) HOLDS(lent_store[i] == 0);
    if (lent_len > needed) HOLDS(memcmp(lent_store + needed, s->store + needed, (lent_len - needed) * sizeof *s->store) == 0);
    take_back(s);
    s->kind = kind, s->on = m, s->stop = stop, s->step = step, s->count = s->row_count = s->value_count = 0;
    order_start(&s->order, &m);
    if (kind == READER && m.across.length * h > CAP) s->kind = 0;
    if (s->kind == READER) {
        fill(s->map, m.across.length * h);
        model_forward(s->map, &m, s->plane);
        if (stop) far_ground(&m, stop, s->map);
        if (step) model_round(s->plane, &m, (int64_t)step);
        s->pure = 1;
    }
}

/* ---- the writer */

static void offer(Slot *s)
{
    static uint16_t heights[RUN];
    size_t n = below(4) ? below(64) : (size_t)wide(2) % (RUN + 1), taken = 0;
    fill(heights, n);
    lend(s);
    const uint16_t *run = area_lend(&run_area, heights, n * sizeof *heights, at_end());
    size_t *said = area_lend(&small_area, NULL, sizeof *said, at_end());
    uint32_t answer = terrain_writer_offer(lent_state, lent_store, lent_len, run, n, said);
    area_back(&run_area);
    area_back(&small_area);
    HOLDS(area_is(&run_area, heights));
    HOLDS(answer ? area_unset(&small_area, 0) : *said <= n);
    back(s, WRITER, answer, MAY(9) | MAY(10));
    if (s->kind != WRITER || answer == 5) return;
    HOLDS(answer == order_offer(&s->order, n, &taken));
    HOLDS(answer || *said == taken);
    if (s->count + taken > CAP) {
        check_rows(s);
        s->kind = 0;
        return;
    }
    memcpy(s->heights + s->count, heights, taken * sizeof *heights);
    s->count += taken;
}

static void draw_row(Slot *s)
{
    size_t room = below(4) ? (s->state[1] <= MOST_WIDTH ? s->state[1] / 2 + 1 : 20) : below(32), length = 0;
    lend(s);
    int32_t *out = area_lend(&out_area, NULL, room * sizeof *out, at_end());
    uint64_t *row = area_lend(&small_area, NULL, 4 * sizeof *row, at_end());
    uint64_t level_before = s->state[7], levels = s->state[2], width = s->state[1], ahead[4] = { 7, 7, 7, 7 }, unset[4] = { 7, 7, 7, 7 };
    uint32_t looked = terrain_writer_waits(lent_state, ahead);
    uint32_t answer = terrain_writer_draw(lent_state, lent_store, lent_len, out, room, row);
    area_back(&out_area);
    area_back(&small_area);
    if (answer) {
        HOLDS(area_unset(&small_area, 0));
    } else {
        HOLDS((row[0] > 0) == (level_before > 0));
        HOLDS(row[0] <= levels && row[1] <= HH && row[3] <= width && row[3] <= room);
        HOLDS(row[0] || (!row[1] && !row[2] && !row[3]));
        length = row[3];
    }
    /* the look says what the draw gives; it asks 1 alone */
    HOLDS(looked == (answer == 1 ? 1u : 0u));
    if (looked) HOLDS(memcmp(ahead, unset, sizeof ahead) == 0);
    if (!answer) HOLDS(memcmp(ahead, row, sizeof ahead) == 0);
    if (answer == 12) HOLDS(ahead[0] && ahead[3] > room);
    HOLDS(area_unset(&out_area, length * sizeof *out));
    back(s, WRITER, answer, MAY(12));
    if (s->kind != WRITER || answer == 5) return;
    if (!order_waits(&s->order)) {
        HOLDS(!answer && !row[0]);
        return;
    }
    Row r = s->order.waiting[s->order.first];
    HOLDS(answer == (r.length > room ? 12u : 0u));
    if (answer) return;
    HOLDS(row[0] == r.level && row[1] == r.band && row[2] == r.row && row[3] == r.length);
    order_drawn(&s->order);
    s->rows[s->row_count++] = r;
    memcpy(s->values + s->value_count, out, r.length * sizeof *out);
    s->value_count += r.length;
    if (s->order.finished && !order_waits(&s->order)) HOLDS(s->value_count == s->count);
}

static void finish(Slot *s)
{
    lend(s);
    uint32_t answer = terrain_writer_finish(lent_state, lent_store, lent_len);
    back(s, WRITER, answer, MAY(8) | MAY(9) | MAY(11));
    if (s->kind == WRITER && answer != 5) HOLDS(answer == order_finish(&s->order));
}

/* ---- the reader */

static uint32_t want(Slot *s, uint64_t wanted[5])
{
    const uint64_t *state = area_lend(&state_area, s->state, sizeof s->state, at_end());
    uint64_t *said = area_lend(&small_area, NULL, 5 * sizeof *said, at_end());
    uint32_t answer = terrain_reader_want(state, said);
    area_back(&state_area);
    area_back(&small_area);
    HOLDS(area_is(&state_area, s->state));
    HOLDS(answer == (counts_fit(s->state, READER) ? 0u : 1u));
    if (answer) {
        HOLDS(area_unset(&small_area, 0));
        memset(wanted, 0xff, 5 * sizeof *wanted);
        return answer;
    }
    memcpy(wanted, said, 5 * sizeof *wanted);
    HOLDS(said[0] <= ENDED && (said[0] == ENDED) == (s->state[7] == 1) && !(s->state[14] && said[0] == ENDED));
    Map m = map_of(s->state, READER);
    size_t level = said[1] - s->state[12]; /* its levels are counted from the stop */
    if (said[0] == ROW && !s->state[3])
        HOLDS(level == 0 && said[2] == LL && said[4] == m.across.length);
    else if (said[0] == ROW)
        HOLDS(level - 1 < s->state[3] && said[2] <= HH && said[4] >= 1 && said[4] == across(&m, level, said[2]));
    else
        HOLDS(!said[1] && !said[2] && !said[3] && !said[4]);
    if (s->kind == READER && said[0] == ROW) HOLDS(said[3] < down(&s->on, said[1], said[2]) && (said[2] != LL || said[1] == s->on.levels));
    if (s->kind == READER && said[0] == DONE && s->stop) {
        /* never Done but for an LL of that level: the one that has these rows, limited */
        static int32_t grid[CAP];
        HOLDS(s->count == side(s->on.across, s->stop).length * side(s->on.down, s->stop).length);
        HOLDS(model_approximation(s->plane, &s->on, s->stop, grid) == 0 || !s->count);
        for (size_t i = 0; i < s->count; i++) HOLDS(s->heights[i] == (grid[i] < 0 ? 0 : grid[i] > 65535 ? 65535 : grid[i]));
    } else if (s->kind == READER && said[0] == DONE && s->step) {
        /* all rows, as they are rebuilt with each value limited */
        static uint16_t limited[CAP];
        HOLDS(s->count == s->on.across.length * s->on.down.length);
        model_tolerant(s->plane, &s->on, limited);
        HOLDS(memcmp(s->heights, limited, s->count * sizeof *limited) == 0);
    } else if (s->kind == READER && said[0] == DONE) {
        /* never Done but for a map: the one that has these rows */
        static int32_t plane[CAP];
        HOLDS(s->count == s->on.across.length * s->on.down.length);
        model_forward(s->heights, &s->on, plane);
        HOLDS(memcmp(plane, s->plane, s->count * sizeof *plane) == 0);
        HOLDS(!s->pure || memcmp(s->heights, s->map, s->count * sizeof *s->map) == 0);
    }
    return 0;
}

/* Whether heights drawn are the map's, or of a rounded plane off by no more than is promised. */
static int near_enough(const Slot *s, const uint16_t *drawn, size_t length)
{
    int most = s->step ? (int)model_bound(s->on.levels, s->step) : 0;
    for (size_t i = 0; i < length; i++)
        if (abs((int)drawn[i] - (int)s->map[s->count + i]) > most) return 0;
    return 1;
}

/* 14: no map has the rows fed, whatever the rows are that are not fed yet. */
static void ended(Slot *s)
{
    static uint16_t map[CAP];
    static int32_t grid[CAP];
    if (s->kind != READER) return;
    HOLDS(!s->pure);
    HOLDS((s->stop ? model_approximation(s->plane, &s->on, s->stop, grid) : model_backward(s->plane, &s->on, map)) != 0);
    s->kind = 0;
}

static void feed(Slot *s)
{
    static int32_t values[MOST_WIDTH + 8];
    uint64_t wanted[5];
    uint32_t no = want(s, wanted);
    unsigned how = byte();
    int out_of_range = 0, row = !no && wanted[0] == ROW;
    size_t n = row ? wanted[4] : below(8), at = 0;
    if (how % 16 == 1) n += 1 + below(4);
    if (how % 16 == 2 && n) n -= 1;
    if (s->kind == READER && row) at = place(&s->on, wanted[1], wanted[2], wanted[3]);
    for (size_t i = 0; i < n; i++)
        values[i] = s->kind == READER && row && i < wanted[4] ? s->plane[at + i] : (int32_t)(how * i % 65536);
    if (how >= 200 && n) {
        size_t i = wide(1) % n;
        values[i] = how & 1 ? word() : stored((int64_t)values[i] + below(9) - 4);
    }
    lend(s);
    const int32_t *run = area_lend(&run_area, values, n * sizeof *values, at_end());
    uint32_t answer = terrain_reader_feed(lent_state, lent_store, lent_len, run, n);
    area_back(&run_area);
    HOLDS(area_is(&run_area, values));
    Map m = map_of(s->state, READER);
    for (size_t i = 0; row && i < n; i++) out_of_range |= values[i] > range(&m, wanted[1]) || values[i] < -range(&m, wanted[1]);
    back(s, READER, answer, MAY(7) | MAY(8) | MAY(9) | MAY(13) | MAY(14));
    if (answer == 1 || answer == 5) return;
    HOLDS((answer == 9) == (wanted[0] == ENDED));
    HOLDS((answer == 8) == (wanted[0] == DRAW || wanted[0] == DONE));
    HOLDS((answer == 13) == (row && n != wanted[4]));
    HOLDS((answer == 7) == (row && n == wanted[4] && out_of_range));
    if (s->kind != READER || (answer && answer != 14)) return;
    if (memcmp(s->plane + at, values, n * sizeof *values)) s->pure = 0;
    memcpy(s->plane + at, values, n * sizeof *values);
    if (answer == 14) ended(s);
}

static void draw_heights(Slot *s)
{
    uint64_t wanted[5];
    uint32_t no = want(s, wanted);
    size_t width = s->state[1], length = 0, room = below(4) ? (width <= MOST_WIDTH ? width + below(3) : 20) : below(32);
    lend(s);
    uint16_t *out = area_lend(&out_area, NULL, room * sizeof *out, at_end());
    size_t *said = area_lend(&small_area, NULL, sizeof *said, at_end());
    uint32_t answer = terrain_reader_draw(lent_state, lent_store, lent_len, out, room, said);
    area_back(&out_area);
    area_back(&small_area);
    if (answer) {
        HOLDS(area_unset(&small_area, 0));
    } else {
        length = *said;
        HOLDS(length == (wanted[0] == DRAW ? width : 0));
    }
    HOLDS(area_unset(&out_area, length * sizeof *out));
    back(s, READER, answer, MAY(9) | MAY(12) | MAY(14));
    if (no || answer == 5) return;
    HOLDS((answer == 9) == (wanted[0] == ENDED));
    HOLDS((answer == 12) == (wanted[0] == DRAW && room < width));
    if (s->kind != READER) return;
    if (answer == 14) ended(s);
    if (answer || !length) return;
    memcpy(s->heights + s->count, out, length * sizeof *out);
    HOLDS(!s->pure || near_enough(s, out, length));
    s->count += length;
}

/* ---- many rows at once: a run leaves what the same single calls leave, whatever stands in state and store */

/* State and store of a stream as they were lent, for the single calls. */
static uint64_t copy_state[16];
static int32_t copy_store[ROOM / 4];
static uint64_t counts[3];
static uint64_t listed[4 * RUN];
static int32_t put_values[RUN];

static void copied(void)
{
    memcpy(copy_state, lent_state, sizeof copy_state);
    if (lent_len) memcpy(copy_store, lent_store, lent_len * sizeof *copy_store);
}

static int copy_is_lent(void)
{
    return memcmp(copy_state, lent_state, sizeof copy_state) == 0 && (!lent_len || memcmp(copy_store, lent_store, lent_len * sizeof *copy_store) == 0);
}

/* Offers, each up to the end of the row begun, and draws, a draw first; what the run must answer. */
static uint32_t single_writes(const uint16_t *heights, size_t n, size_t room, size_t names)
{
    size_t taken;
    uint64_t row[4];
    Map m = map_of(copy_state, WRITER);
    uint32_t no = terrain_writer_waits(copy_state, row);
    memset(counts, 0, sizeof counts);
    if (no) return no;
    if (lent_len < model_writer_store(&m)) return 5;
    if (n && copy_state[5]) return 9;
    for (;;) {
        HOLDS(terrain_writer_waits(copy_state, row) == 0);
        if (row[0]) {
            if (row[3] > room - counts[2] || names - 4 * counts[1] < 4) return counts[0] || counts[1] ? 0 : 12;
            HOLDS(terrain_writer_draw(copy_state, copy_store, lent_len, put_values + counts[2], room - counts[2], row) == 0);
            memcpy(listed + 4 * counts[1]++, row, sizeof row);
            counts[2] += row[3];
        } else if (counts[0] < n) {
            size_t left = n - counts[0], end = copy_state[1] - copy_state[4];
            no = terrain_writer_offer(copy_state, copy_store, lent_len, heights + counts[0], left < end ? left : end, &taken);
            if (no) return counts[0] || counts[1] ? 0 : no;
            counts[0] += taken;
        } else {
            return 0;
        }
    }
}

static void writer_run(Slot *s)
{
    static uint16_t heights[RUN];
    size_t n = below(4) ? below(64) : (size_t)wide(2) % (RUN + 1), room = below(4) ? 64 + below(256) : below(20), names = below(4) ? 4 * below(40) : below(12);
    fill(heights, n);
    lend(s);
    copied();
    uint32_t must = single_writes(heights, n, room, names);
    const uint16_t *run = area_lend(&run_area, heights, n * sizeof *heights, at_end());
    int32_t *out = area_lend(&out_area, NULL, room * sizeof *out, at_end());
    uint64_t *into = area_lend(&more_area, NULL, names * sizeof *into, at_end());
    uint64_t *said = area_lend(&small_area, NULL, 3 * sizeof *said, at_end());
    uint32_t answer = terrain_writer_run(lent_state, lent_store, lent_len, run, n, out, room, into, names, said);
    area_back(&run_area), area_back(&out_area), area_back(&more_area), area_back(&small_area);
    HOLDS(answer == must && area_is(&run_area, heights));
    if (answer) memset(counts, 0, sizeof counts);
    else HOLDS(memcmp(said, counts, sizeof counts) == 0 && copy_is_lent());
    if (answer) HOLDS(area_unset(&small_area, 0));
    HOLDS(area_unset(&out_area, counts[2] * sizeof *out) && area_unset(&more_area, 4 * counts[1] * sizeof *into));
    HOLDS(memcmp(out, put_values, counts[2] * sizeof *out) == 0 && memcmp(into, listed, 4 * counts[1] * sizeof *into) == 0);
    back(s, WRITER, answer, MAY(9) | MAY(10) | MAY(12));
    if (s->kind != WRITER || answer) return;
    if (s->count + counts[0] > CAP || s->row_count + counts[1] > CAP) {
        check_rows(s);
        s->kind = 0;
        return;
    }
    /* the model goes the same way */
    size_t taken, done = 0, at = 0;
    for (size_t i = 0; i < counts[1] || done < counts[0];) {
        if (order_waits(&s->order)) {
            Row r = s->order.waiting[s->order.first];
            HOLDS(i < counts[1] && listed[4 * i] == r.level && listed[4 * i + 1] == r.band && listed[4 * i + 2] == r.row && listed[4 * i + 3] == r.length);
            order_drawn(&s->order), i++;
            s->rows[s->row_count++] = r;
            memcpy(s->values + s->value_count, put_values + at, r.length * sizeof *put_values);
            s->value_count += r.length, at += r.length;
        } else {
            HOLDS(done < counts[0] && order_offer(&s->order, counts[0] - done, &taken) == 0 && taken);
            done += taken;
        }
    }
    memcpy(s->heights + s->count, heights, counts[0] * sizeof *heights);
    s->count += counts[0];
}

/* A single call may leave a state that somebody made up as one that 1 turns away; a run asks it once. Then only what is touched is looked at. */
enum { UNKNOWN = 99 };

/* Draws while a row can be drawn, else feeds; the numbers come from the slot's plane, if it is a reader's, and are put into `run`. */
static uint32_t single_reads(const Slot *s, int32_t *run, size_t n, uint16_t *drawn, size_t room)
{
    size_t at = 0, rows = 0, length;
    uint64_t row[5];
    Map m = map_of(copy_state, READER);
    uint32_t no = terrain_reader_want(copy_state, row);
    memset(counts, 0, sizeof counts);
    if (no) return no;
    if (lent_len < model_store(&m) + copy_state[13]) return 5;
    if (row[0] == ENDED) return 9;
    for (int done = 0;; done = 1) {
        if (terrain_reader_want(copy_state, row)) return UNKNOWN;
        size_t width = copy_state[1];
        if (row[0] == DRAW) {
            if ((rows + 1) * width > room) return done ? 0 : 12;
            no = terrain_reader_draw(copy_state, copy_store, lent_len, drawn + rows * width, width, &length);
            if (no) return no;
            counts[1] = ++rows;
        } else if (row[0] == ROW && n - at >= row[4]) {
            if (s->kind == READER) memcpy(run + at, s->plane + place(&s->on, row[1], row[2], row[3]), row[4] * sizeof *run);
            if (!below(30)) run[at + byte() % row[4]] = word();
            no = terrain_reader_feed(copy_state, copy_store, lent_len, run + at, row[4]);
            if (no == 7) return done ? 0 : 7;
            if (no) return no;
            counts[0] = at += row[4];
        } else {
            return done || !n ? 0 : row[0] == ROW ? 13 : 8;
        }
    }
}

static void reader_run(Slot *s)
{
    static int32_t values[RUN];
    static uint16_t drawn[RUN];
    size_t width = s->state[1] <= MOST_WIDTH ? s->state[1] : 20, n = below(4) ? below(200) : (size_t)wide(2) % RUN, room = below(4) * width + below(4);
    if (room > RUN) room = RUN;
    if (!s->state[1]) return; /* of no width: a draw of nothing is one */
    for (size_t i = 0; i < n; i++) values[i] = (int32_t)(i * 7 % 1000);
    lend(s);
    copied();
    uint32_t must = single_reads(s, values, n, drawn, room);
    const int32_t *run = area_lend(&run_area, values, n * sizeof *values, at_end());
    uint16_t *out = area_lend(&out_area, NULL, room * sizeof *out, at_end());
    uint64_t *said = area_lend(&small_area, NULL, 2 * sizeof *said, at_end());
    uint32_t answer = terrain_reader_run(lent_state, lent_store, lent_len, run, n, out, room, said);
    area_back(&run_area), area_back(&out_area), area_back(&small_area);
    HOLDS((answer == must || must == UNKNOWN) && area_is(&run_area, values));
    if (must == UNKNOWN) {
        HOLDS(s->kind == 0);
        area_back(&state_area), area_back(&store_area);
        take_back(s);
        return;
    }
    if (answer && answer != 14) HOLDS(area_unset(&small_area, 0) && area_unset(&out_area, 0));
    else HOLDS(memcmp(said, counts, 2 * sizeof *said) == 0 && copy_is_lent() && memcmp(out, drawn, counts[1] * width * sizeof *out) == 0);
    if (!answer) HOLDS(area_unset(&out_area, counts[1] * width * sizeof *out));
    if (answer == 14) { /* after other rows: the single calls left the same */
        area_back(&state_area), area_back(&store_area);
        take_back(s);
    } else {
        back(s, READER, answer, MAY(7) | MAY(8) | MAY(9) | MAY(12) | MAY(13));
    }
    s->kind = 0; /* what it was fed is not kept: the single calls said what it must draw */
}

/* ---- lies */

/* A state that no call made, its counts in their ranges or one of them anything; and any store. */
static void foreign(Slot *s)
{
    size_t filter = below(2);
    Map m = { { origin(), below(4) ? 1 + below(20) : MOST_WIDTH }, { origin(), below(2) ? 1 + below(40) : MOST_HEIGHT }, 1 + below(5), filter };
    check_rows(s);
    s->kind = 0;
    memset(s->state, 0, sizeof s->state);
    if (below(2)) {
        uint64_t level = below(6), start = level ? stretches(&m, level - 1) : 0;
        uint64_t counts[] = { 1, m.across.length, m.levels, wide(2), byte() % (m.across.length + 1), below(2), below(10), level, below(level ? 5 : 1),
                              below(8) ? start : wide(2), m.across.start, m.down.start, below(16) ? filter : below(4) };
        memcpy(s->state, counts, sizeof counts);
    } else {
        uint64_t stop = below(2) ? 0 : below(6), last = stop && !below(4);
        if (last) m.levels = 0;
        uint64_t counts[] = { 2, m.across.length, m.down.length, m.levels, below(2) ? below(40) : wide(2), last ? 0 : below(6), below(5), below(8) == 7,
                              m.across.start, m.down.start, last || below(2) ? 0 : below(5), below(16) ? filter : below(4), stop,
                              stop ? (last ? m.across.length : 0) + byte() : 0 };
        memcpy(s->state, counts, sizeof counts);
        if (!below(4)) { /* a tolerant one, as a rule with the numbers that it has */
            s->state[14] = 1 + (below(16) == 15);
            if (below(4)) s->state[7] = s->state[8] = s->state[9] = s->state[11] = s->state[12] = s->state[13] = 0;
        }
        m = map_of(s->state, READER);
        new_store(s, model_store(&m) + s->state[13] + below(4));
        return;
    }
    new_store(s, model_writer_store(&m) + below(4));
}

static void scribble(Slot *s)
{
    unsigned how = byte();
    check_rows(s);
    s->kind = 0;
    if (how % 3 == 0) s->state[byte() % 16] = number();
    if (how % 3 == 1 && s->store_len)
        for (unsigned i = 0; i < 1 + how / 64; i++) s->store[wide(2) % s->store_len] = word();
    if (how % 3 == 2) {
        uint32_t seed = byte();
        for (size_t i = 0; i < s->store_len; i++) s->store[i] = (int32_t)(seed = seed * 1664525u + 1013904223u);
    }
}

/* ---- lines, maps, band rows */

static void line(void)
{
    static int32_t values[RUN], expected[RUN];
    size_t n = below(4) ? below(40) : (size_t)wide(2) % RUN, more = below(12), len = n + (more < 8 ? more % 4 : 0);
    if (more >= 8) len = n ? byte() % n : 0;
    int forward = byte() & 1;
    size_t start = below(4) ? below(4) : number(), filter = below(FILTERS);
    uint32_t seed = byte();
    for (size_t i = 0; i < n; i++) values[i] = below(8) ? (int32_t)(uint32_t)(seed * i * 2654435761u) >> (i & 16) : word();
    memcpy(expected, values, n * sizeof *values);
    uint32_t first = len < n ? 5 : model_line(expected, n, 1, start, filter, forward) ? 0 : 14;
    const int32_t *lent = area_lend(&run_area, values, n * sizeof *values, at_end());
    int32_t *out = area_lend(&out_area, NULL, len * sizeof *out, at_end());
    uint32_t answer = filter ? (forward ? terrain_ccsds_line_forward : terrain_ccsds_line_backward)(lent, n, start, out, len)
                             : (forward ? terrain_line_forward : terrain_line_backward)(lent, n, start, out, len);
    area_back(&run_area);
    area_back(&out_area);
    HOLDS(area_is(&run_area, values));
    HOLDS(answer == first);
    HOLDS(area_unset(&out_area, answer ? 0 : n * sizeof *out));
    HOLDS(answer || !n || memcmp(out, expected, n * sizeof *out) == 0);
}

/* One pass of the 9/7 lifting over the odd or even samples; run compiles without contraction, so that nothing is fused. */
static void pass(float *x, size_t n, size_t first, float c)
{
    for (size_t i = first; i < n; i += 2) {
        float left = x[i ? i - 1 : 1], right = x[i + 1 < n ? i + 1 : i - 1];
        x[i] = x[i] + c * (left + right);
    }
}

static void profile(void)
{
    static uint16_t heights[MOST_WIDTH + 8];
    static float expected[MOST_WIDTH + 8];
    static const float factors[4] = { -1.586134342f, -0.052980118f, 0.882911075f, 0.443506852f };
    size_t n = below(4) ? below(40) : (size_t)wide(2) % (MOST_WIDTH + 8), more = below(12), len = n + (more < 8 ? more % 4 : 0);
    if (more >= 8) len = n ? byte() % n : 0;
    fill(heights, n);
    for (size_t i = 0; i < n; i++) expected[i] = heights[i];
    for (size_t k = 0; k < 4 && n > 1; k++) pass(expected, n, (k + 1) % 2, factors[k]);
    const uint16_t *lent = area_lend(&run_area, heights, n * sizeof *heights, at_end());
    float *out = area_lend(&out_area, NULL, len * sizeof *out, at_end());
    uint32_t answer = terrain_profile(lent, n, out, len);
    area_back(&run_area);
    area_back(&out_area);
    HOLDS(area_is(&run_area, heights));
    HOLDS(answer == (n < 1 || n > MOST_WIDTH ? 2u : len < n ? 5u : 0u));
    HOLDS(area_unset(&out_area, answer ? 0 : n * sizeof *out));
    HOLDS(answer || memcmp(out, expected, n * sizeof *out) == 0);
}

/* What the questions before 6 and 7 say, areas of these lengths being lent; the view has no filter. */
static uint32_t asked(const Map *m, int view, size_t shortest)
{
    Map plain = *m;
    if (view) plain.filter = 0;
    uint32_t no = streamable(&plain);
    if (no == 2) return 2;
    if (m->down.length < 1 || m->down.length > MOST_HEIGHT) return 3;
    return no ? no : shortest < m->across.length * m->down.length ? 5 : 0;
}

static size_t least(size_t a, size_t b)
{
    return a < b ? a : b;
}

static size_t zeros(const Area *area)
{
    size_t n = 0;
    while (n < area->bytes && area->at[n] == 0) n++;
    return n;
}

static void map(void)
{
    static uint16_t heights[CAP + 8], again[CAP];
    static int32_t plane[CAP + 8], expected[CAP];
    Map m = any_map();
    size_t w = m.across.length, h = m.down.length;
    size_t n = w <= MOST_WIDTH && h <= MOST_HEIGHT && w * h <= CAP ? w * h : 64;
    size_t lens[3];
    for (int i = 0; i < 3; i++) {
        unsigned more = byte();
        lens[i] = more >= 250 && n ? n - 1 : n + more % 3;
    }
    fill(heights, lens[0]);
    uint32_t first = asked(&m, 0, least(lens[0], least(lens[1], lens[2])));
    const uint16_t *lent = area_lend(&run_area, heights, lens[0] * sizeof *heights, at_end());
    int32_t *out = area_lend(&out_area, NULL, lens[1] * sizeof *out, at_end());
    int32_t *work = area_lend(&more_area, NULL, lens[2] * sizeof *work, at_end());
    uint32_t answer = terrain_map_forward(lent, lens[0], shape_of(&m), out, lens[1], work, lens[2]);
    area_back(&run_area);
    area_back(&out_area);
    area_back(&more_area);
    HOLDS(answer == first && area_is(&run_area, heights));
    HOLDS(area_unset(&out_area, answer ? 0 : n * sizeof *out) && area_unset(&more_area, answer ? 0 : n * sizeof *work));
    if (!answer) {
        HOLDS(zeros(&more_area) == n * sizeof *work);
        model_forward(heights, &m, expected);
        HOLDS(memcmp(out, expected, n * sizeof *out) == 0);
    }
    /* and back, with up to three numbers changed */
    memset(plane, 0, sizeof plane);
    memcpy(plane, out, lens[1] * sizeof *plane);
    for (unsigned i = below(4); i-- > 0 && n;) {
        size_t at = wide(2) % n;
        plane[at] = byte() & 1 ? word() : stored((int64_t)plane[at] + below(9) - 4);
    }
    if (!first) first = model_backward(plane, &m, again);
    const int32_t *lent_plane = area_lend(&out_area, plane, lens[1] * sizeof *plane, at_end());
    uint16_t *drawn = area_lend(&run_area, NULL, lens[0] * sizeof *drawn, at_end());
    work = area_lend(&more_area, NULL, lens[2] * sizeof *work, at_end());
    answer = terrain_map_backward(lent_plane, lens[1], shape_of(&m), drawn, lens[0], work, lens[2]);
    area_back(&run_area);
    area_back(&out_area);
    area_back(&more_area);
    HOLDS(answer == first && area_is(&out_area, plane));
    int written = answer == 0 || answer == 14;
    HOLDS(area_unset(&run_area, written ? n * sizeof *drawn : 0) && area_unset(&more_area, written ? n * sizeof *work : 0));
    if (written) HOLDS(zeros(&more_area) == n * sizeof *work);
    if (answer == 14) HOLDS(zeros(&run_area) == n * sizeof *drawn);
    if (answer == 0) HOLDS(memcmp(drawn, again, n * sizeof *drawn) == 0);
}

static void level_size(void)
{
    Map m = any_map();
    size_t level = below(8) ? below(7) : number();
    size_t *columns = area_lend(&small_area, NULL, sizeof *columns, at_end()), *rows = area_lend(&more_area, NULL, sizeof *rows, at_end());
    uint32_t answer = terrain_level_size(shape_of(&m), level, columns, rows), first = asked(&m, 0, SIZE_MAX);
    area_back(&small_area);
    area_back(&more_area);
    if (!first && (level < 1 || level > m.levels)) first = 17;
    HOLDS(answer == first);
    if (answer) HOLDS(area_unset(&small_area, 0) && area_unset(&more_area, 0));
    else HOLDS(*columns == side(m.across, level).length && *rows == side(m.down, level).length);
}

static void band_row(void)
{
    Map m = any_map();
    size_t w = m.across.length, h = m.down.length;
    size_t level = below(8) ? 1 + below(5) : number(), band = below(8) ? below(4) : number(), row = below(4) ? below(8) : number();
    size_t len = below(8) ? (w <= MOST_WIDTH && h <= MOST_HEIGHT ? w * h : 0) : number();
    size_t *start = area_lend(&small_area, NULL, sizeof *start, at_end()), *length = area_lend(&more_area, NULL, sizeof *length, at_end());
    uint32_t answer = terrain_band_row(len, shape_of(&m), level, band, row, start, length);
    area_back(&small_area);
    area_back(&more_area);
    uint32_t first = asked(&m, 1, len);
    if (!first && (level < 1 || level > m.levels || band > HH || (band == LL && level < m.levels))) first = 6;
    if (!first && (row >= down(&m, level, band) || !across(&m, level, band))) first = 6;
    HOLDS(answer == first);
    if (answer) HOLDS(area_unset(&small_area, 0) && area_unset(&more_area, 0));
    else HOLDS(*start == place(&m, level, band, row) && *length == across(&m, level, band));
}

/* ---- rounding and its figure */

static void rounding(void)
{
    static int32_t plane[CAP + 8], expected[CAP + 8];
    Map m = any_map();
    m.across.start = m.down.start = m.filter = 0;
    size_t w = m.across.length, h = m.down.length, n = w <= MOST_WIDTH && h <= MOST_HEIGHT && w * h <= CAP ? w * h : 64;
    size_t len = below(16) ? n + below(3) : n ? n - 1 : 0, step = below(8) ? 1 + below(64) : number();
    uint32_t seed = byte(), first = asked(&m, 0, SIZE_MAX);
    for (size_t i = 0; i < len; i++) plane[i] = below(8) ? (int32_t)(seed = seed * 1664525u + 1013904223u) >> (i & 16) : word();
    memcpy(expected, plane, sizeof expected);
    if (!first && (step < 1 || step > 64)) first = 20;
    if (!first && len < w * h) first = 5;
    if (!first) model_round(expected, &m, (int64_t)step);
    int32_t *lent = area_lend(&out_area, plane, len * sizeof *plane, at_end());
    uint32_t answer = terrain_round(lent, len, w, h, m.levels, step);
    area_back(&out_area);
    HOLDS(answer == first && area_is(&out_area, expected));
    size_t *bound = area_lend(&small_area, NULL, sizeof *bound, at_end());
    answer = terrain_error_bound(m.levels, step, bound);
    area_back(&small_area);
    HOLDS(answer == (m.levels < 1 || m.levels > MOST_LEVELS ? 4u : step < 1 || step > 64 ? 20u : 0u));
    if (answer) HOLDS(area_unset(&small_area, 0));
    else HOLDS(*bound == model_bound(m.levels, step));
}

/* ---- turns: a turn-giver that is set up, marked, cleared and scribbled in; the model looks at the readers one by one */

static uint64_t giver[TERRAIN_TURNS_LENGTH];

static int is_giver(void)
{
    return giver[0] == 3 && giver[1] <= 65535 && giver[2] <= 15 && giver[3] == 0;
}

static void turn(void)
{
    unsigned which = below(8);
    if (which == 0) giver[below(4)] = number(); /* and then a mark */
    size_t reader = below(8) ? below(16) : number(), next = 1;
    uint64_t *lent = area_lend(&state_area, giver, sizeof giver, at_end());
    size_t *served = area_lend(&small_area, NULL, sizeof *served, at_end());
    uint32_t first = which == 1 || is_giver() ? 0u : 1u, answer;
    if (which == 1) answer = terrain_turns_set_up(lent);
    else if (which < 4) answer = terrain_turns_mark(lent, reader);
    else if (which == 4) answer = terrain_turns_clear(lent, reader);
    else answer = terrain_turns_give(lent, served);
    area_back(&state_area);
    area_back(&small_area);
    if (!first && which != 1 && which < 5 && reader > 15) first = 21;
    HOLDS(answer == first);
    if (answer || which < 5) HOLDS(area_unset(&small_area, 0));
    if (!answer && which == 1) memcpy(giver, (uint64_t[]){ 3, 0, 15, 0 }, sizeof giver);
    else if (!answer && which < 4) giver[1] |= (uint64_t)1 << reader;
    else if (!answer && which == 4) giver[1] &= ~((uint64_t)1 << reader);
    else if (!answer) {
        while (next <= 16 && !(giver[1] >> (giver[2] + next) % 16 & 1)) next++;
        if (next <= 16) giver[2] = (giver[2] + next) % 16;
        HOLDS(*served == (next <= 16 ? giver[2] : 16));
    }
    HOLDS(area_is(&state_area, giver));
}

/* ---- as a program would */

static void write_on(Slot *s)
{
    if (s->kind != WRITER) set_up(s, WRITER);
    for (int i = 0; i < 80 && s->kind == WRITER; i++) {
        if (!below(8)) writer_run(s);
        else if (order_waits(&s->order) && below(4)) draw_row(s);
        else if (s->order.finished && !order_waits(&s->order)) break;
        else if (below(16) == 15) finish(s);
        else offer(s);
    }
}

static void read_on(Slot *s)
{
    if (s->kind != READER) set_up(s, READER);
    for (int i = 0; i < 80 && s->kind == READER; i++) {
        uint64_t wanted[5];
        want(s, wanted);
        if (wanted[0] == ROW) feed(s);
        else if (wanted[0] == DRAW) draw_heights(s);
        else break;
    }
}

static void store_lengths(void)
{
    Map m = any_map();
    m.across.length = number();
    HOLDS(terrain_store_length(shape_of(&m)) == model_writer_store(&m));
    HOLDS(terrain_reader_store_length(shape_of(&m)) == model_store(&m));
}

static void call(void)
{
    unsigned which = byte();
    Slot *s = &slots[which / 32 % SLOTS];
    switch (which % 32) {
    case 0: case 1: set_up(s, WRITER); break;
    case 2: case 3: set_up(s, READER); break;
    case 4: case 5: case 6: offer(s); break;
    case 7: case 8: writer_run(s); break;
    case 9: case 10: case 11: draw_row(s); break;
    case 12: if (below(2)) profile(); else level_size(); break;
    case 13: if (below(4)) finish(s); else writer_run(s); break;
    case 14: if (below(2)) feed(s); else reader_run(s); break;
    case 15: case 16: case 17: case 18: case 19: feed(s); break;
    case 20: case 21: case 22: draw_heights(s); break;
    case 23: { uint64_t wanted[5]; want(s, wanted); break; }
    case 24: foreign(s); break;
    case 25: scribble(s); break;
    case 26: if (below(2)) line(); else rounding(); break;
    case 27: map(); break;
    case 28: if (below(2)) band_row(); else turn(); break;
    case 29: store_lengths(); break;
    case 30: write_on(s); break;
    default: read_on(s); break;
    }
}

int LLVMFuzzerTestOneInput(const uint8_t *data, size_t size)
{
    input = data, input_end = data + size;
    memset(giver, 0, sizeof giver);
    for (int i = 0; i < SLOTS; i++) {
        slots[i].kind = 0;
        memset(slots[i].state, 0, sizeof slots[i].state);
        new_store(&slots[i], 8);
    }
    for (int i = 0; i < STEPS && input < input_end; i++) call();
    for (int i = 0; i < SLOTS; i++) check_rows(&slots[i]);
    return 0;
}
