/* Ground files under a fuzzer: savers, headers and loaders by lists of calls in any order, on files of maps and rounded planes, damaged ones with the
 * checksum put right or not, bytes of nobody, cut anywhere, and on arrays and areas that were scribbled in. What the calls must give is the format's text
 * once more (file_model.h) and, of the rows, a reader that is fed them one by one; calls.c holds that one to its own model. tests/fuzz/run runs it. */
#define _DEFAULT_SOURCE
#include "areas.h"
#include "input.h"
#include "file_model.h"
#include "../../include/terrain.h"

enum { CAP = 1200, LOADERS = 2, STEPS = 300, SURPLUS = 3 };

static Area state_area, store_area, row_area, run_area, out_area, small_area;

static int at_end(void)
{
    return byte() & 1;
}

static terrain_shape shape_of(const Map *m)
{
    terrain_shape shape = terrain_shape_of(m->across.length, m->down.length, m->levels);
    shape.x = (uint16_t)m->across.start, shape.y = (uint16_t)m->down.start, shape.filter = (uint32_t)m->filter;
    return shape;
}

/* A map, as a rule a small one that is taken; a step, as a rule one that such a map can have. */
static Map any_map(void)
{
    Map m = { { 0, below(8) ? 1 + below(40) : size() }, { 0, below(8) ? 1 + below(20) : size() }, below(8) ? 1 + below(5) : number(), filter_number() };
    m.across.start = origin(), m.down.start = origin();
    return m;
}

static size_t any_step(Map *m)
{
    size_t step = below(3) ? 1 : below(8) ? 1 + below(64) : number();
    if (step != 1 && below(8)) m->across.start = m->down.start = m->filter = 0;
    return step;
}

/* 2, 3, 18, 4, 20 and 22: what both set-ups ask of shape and step. */
static uint32_t refused(const Map *m, size_t step)
{
    uint32_t no = streamable(m);
    if (no == 2) return 2;
    if (m->down.length < 1 || m->down.length > MOST_HEIGHT) return 3;
    if (no) return no;
    if (step < 1 || step > 64) return 20;
    return step > 1 && (m->across.start || m->down.start || m->filter) ? 22 : 0;
}

/* Whether this library loads files of a step above 1. */
static int steps_are_loaded(void)
{
    static int known = -1;
    uint64_t state[32];
    int32_t store[64];
    if (known < 0) known = terrain_load_set_up(state, terrain_shape_of(1, 1, 1), 2, store, 64) == 0;
    return known;
}

static int small(const Map *m)
{
    return m->across.length <= 64 && m->down.length <= 64 && m->across.length * m->down.length <= CAP;
}

/* ---- a reader that is fed row by row */

typedef struct {
    uint64_t state[16];
    int32_t store[4096];
} Shadow;

static uint32_t shadow_set_up(Shadow *s, const Map *m, size_t step)
{
    if (step > 1) return terrain_tolerant_set_up(s->state, m->across.length, m->down.length, m->levels, s->store, 4096);
    return terrain_reader_set_up(s->state, shape_of(m), s->store, 4096);
}

static uint64_t shadow_want(const Shadow *s, Row *row)
{
    uint64_t want[5];
    HOLDS(terrain_reader_want(s->state, want) == 0);
    if (row) *row = (Row){ want[1], want[2], want[3], want[4] };
    return want[0];
}

/* The order of the rows, by a reader of flat ground. */
static void find_order(Form *f)
{
    static Shadow s;
    static const int32_t zero[MOST_WIDTH];
    uint16_t line[64];
    size_t drawn;
    f->count = 0;
    HOLDS(shadow_set_up(&s, &f->map, f->step) == 0);
    for (Row row;;) {
        uint64_t want = shadow_want(&s, &row);
        if (want == TERRAIN_WANT_DONE) return;
        if (want == TERRAIN_WANT_DRAW) {
            HOLDS(terrain_reader_draw(s.state, s.store, 4096, line, 64, &drawn) == 0);
        } else {
            f->rows[f->count++] = row;
            HOLDS(f->count <= MOST_ROWS && terrain_reader_feed(s.state, s.store, 4096, zero, row.length) == 0);
        }
    }
}

/* ---- a plane and its file, which saver and loaders have in common */

static Form form;
static int formed;
static int32_t plane[CAP];
static uint8_t whole[FILE_CAP]; /* the file, or what stands before the row that is refused */
static size_t whole_length;
static uint32_t whole_refused;
static uint8_t offered[FILE_CAP]; /* what loaders are offered: the file, damaged or not */
static size_t offered_length;

static void damage(void)
{
    memcpy(offered, whole, whole_length);
    offered_length = whole_length;
    unsigned how = below(8);
    if (how < 3) return;
    for (unsigned i = 0; i < 1 + how % 2; i++) {
        size_t at = wide(2) % offered_length;
        if (at < HEAD && offered_length > HEAD && below(4)) at = offered_length - 1 - at % (offered_length - HEAD);
        offered[at] = (uint8_t)(below(2) ? offered[at] ^ 1u << below(8) : byte());
    }
    if (how > 5 && offered_length > 4) put_number(offered + offered_length - 4, form_sum(offered, offered_length - 4), 4);
    if (how == 4 && offered_length + 8 < FILE_CAP) {
        size_t at = wide(2) % offered_length; /* a byte too much or too little */
        if (below(2)) memmove(offered + at + 1, offered + at, offered_length++ - at), offered[at] = (uint8_t)byte();
        else memmove(offered + at, offered + at + 1, --offered_length - at);
    }
}

static void new_plane(void)
{
    static uint16_t heights[CAP];
    Map m = any_map();
    size_t step = any_step(&m), n = m.across.length * m.down.length;
    if (refused(&m, step) || !small(&m)) return;
    form.map = m, form.step = step;
    formed = 1;
    fill(heights, n);
    model_forward(heights, &m, plane);
    if (form.step > 1) model_round(plane, &m, (int64_t)form.step);
    for (unsigned i = below(4) ? 0 : 1 + below(3); i-- > 0;) {
        size_t at = wide(2) % n;
        plane[at] = byte() & 1 ? word() : stored((int64_t)plane[at] + below(9) - 4);
    }
    find_order(&form);
    whole_length = form_file(&form, plane, whole, &whole_refused);
    damage();
}

/* ---- the saver */

static uint64_t saver[32];
static int saver_good; /* all its calls went by the rules, of the plane that stands */
static size_t saved;

static void save_set_up(void)
{
    Map m = formed && below(4) ? form.map : any_map();
    size_t step = formed && below(8) ? form.step : any_step(&m);
    uint64_t *lent = area_lend(&state_area, saver, sizeof saver, at_end());
    uint32_t answer = terrain_save_set_up(lent, shape_of(&m), step);
    area_back(&state_area);
    HOLDS(answer == refused(&m, step));
    if (answer) {
        HOLDS(area_is(&state_area, saver));
        return;
    }
    memcpy(saver, lent, sizeof saver);
    saver_good = formed && !memcmp(&m, &form.map, sizeof m) && step == form.step;
    saved = 0;
}

static void save(void)
{
    size_t n = formed ? form.map.across.length * form.map.down.length : 64, room = below(4) ? below(40) : wide(2) % 3000;
    size_t len = below(16) ? n : n - 1, written = 0;
    uint64_t *lent = area_lend(&state_area, saver, sizeof saver, at_end());
    const int32_t *from = area_lend(&run_area, plane, len * sizeof *plane, at_end());
    uint8_t *out = area_lend(&out_area, NULL, room, at_end());
    size_t *said = area_lend(&small_area, NULL, sizeof *said, at_end());
    uint32_t answer = terrain_save(lent, from, len, out, room, said);
    area_back(&state_area), area_back(&run_area), area_back(&out_area), area_back(&small_area);
    HOLDS(area_is(&run_area, plane) && (answer == 0 || answer == 1 || answer == 5 || answer == 7 || answer == 22));
    if (answer) HOLDS(area_is(&state_area, saver) && area_unset(&small_area, 0));
    else written = *said;
    HOLDS(written <= room && area_unset(&out_area, written));
    memcpy(saver, lent, sizeof saver);
    if (!saver_good) return;
    size_t left = whole_length - saved, goes = left < room ? left : room;
    if (len < n) HOLDS(answer == 5);
    else if (!left && room) HOLDS(answer == whole_refused && !written);
    else HOLDS((answer == 0 && written == goes && memcmp(out, whole + saved, goes) == 0) || (!room && answer == whole_refused));
    saved += written;
}

/* As a program would. */
static void save_on(void)
{
    if (!saver_good) save_set_up();
    for (int i = 0; i < 30 && saver_good && saved < whole_length; i++) save();
}

/* ---- the header */

static void header(void)
{
    uint8_t bytes[HEAD + 4];
    size_t n = below(8) ? HEAD + below(4) : below(HEAD);
    Form f = form;
    f.map = any_map();
    f.step = any_step(&f.map);
    for (size_t i = 0; i < sizeof bytes; i++) bytes[i] = (uint8_t)byte();
    if (formed && below(2)) memcpy(bytes, offered, HEAD < offered_length ? HEAD : offered_length);
    else if (below(8)) form_head(&f, bytes);
    for (unsigned i = below(3); i-- > 0;) bytes[byte() % HEAD] = (uint8_t)(below(4) ? byte() % 8 : byte());
    const uint8_t *lent = area_lend(&run_area, bytes, n, at_end());
    uint64_t *said = area_lend(&small_area, NULL, 7 * sizeof *said, at_end());
    uint32_t answer = terrain_file_header(lent, n, said), first = 0;
    area_back(&run_area), area_back(&small_area);
    static const uint8_t magic[9] = { 0x89, 0x47, 0x4e, 0x44, 0x0d, 0x0a, 0x1a, 0x0a, 1 };
    Map m = { { bytes[12] + 256u * bytes[13], bytes[16] + 256u * bytes[17] }, { bytes[14] + 256u * bytes[15], 0 }, bytes[10], bytes[9] };
    m.down.length = bytes[18] + 256u * bytes[19] + 65536u * bytes[20] + 16777216u * bytes[21];
    size_t step = bytes[11];
    if (n < HEAD) first = 5;
    else if (memcmp(bytes, magic, 9) || bytes[22] || bytes[23]) first = 22;
    else if (step > 1 && (m.across.start || m.down.start || m.filter == 1)) first = 22;
    else first = refused(&m, step);
    HOLDS(answer == first);
    uint64_t wanted[7] = { m.across.length, m.down.length, m.levels, m.across.start, m.down.start, m.filter, step };
    if (answer) HOLDS(area_unset(&small_area, 0));
    else HOLDS(area_is(&small_area, wanted));
}

/* ---- loaders */

typedef struct {
    uint64_t state[32];
    int32_t store[4096 + SURPLUS], row[64 + SURPLUS];
    size_t store_len, row_len, store_needed, row_needed;
    int good; /* all its calls went by the rules */
    Form form;
    Reading reading;
    Shadow shadow;
    int over;  /* the file is */
    size_t at; /* in what is offered */
} Loader;

static Loader loaders[LOADERS];
static uint64_t *lent_state;
static int32_t *lent_store, *lent_row;
static size_t lent_len, lent_row_len;

static void lend(Loader *l)
{
    unsigned how = byte();
    lent_len = how >= 240 && l->store_len ? l->store_len - 1 - how % 4 % l->store_len : l->store_len;
    lent_row_len = how % 16 == 15 && l->row_len ? l->row_len - 1 - how / 16 % 4 % l->row_len : l->row_len;
    lent_state = area_lend(&state_area, l->state, sizeof l->state, how & 1);
    lent_store = area_lend(&store_area, l->store, lent_len * sizeof *l->store, how & 2);
    lent_row = area_lend(&row_area, l->row, lent_row_len * sizeof *l->row, how & 4);
}

/* After a call: what was turned away changed nothing, the surplus stands, 14 has zeroed the store. */
static void back(Loader *l, uint32_t answer)
{
    area_back(&state_area), area_back(&store_area), area_back(&row_area);
    if (answer && answer != 14) HOLDS(area_is(&state_area, l->state) && area_is(&store_area, l->store) && area_is(&row_area, l->row));
    if (l->good) {
        for (size_t i = l->store_needed; i < lent_len; i++) HOLDS(lent_store[i] == l->store[i]);
        for (size_t i = l->row_needed; i < lent_row_len; i++) HOLDS(lent_row[i] == l->row[i]);
        if (answer == 14)
            for (size_t i = 0; i < l->store_needed; i++) HOLDS(lent_store[i] == 0);
    }
    memcpy(l->state, lent_state, sizeof l->state);
    memcpy(l->store, lent_store, lent_len * sizeof *l->store);
    memcpy(l->row, lent_row, lent_row_len * sizeof *l->row);
}

static void load_set_up(Loader *l)
{
    Map m = formed && below(8) ? form.map : any_map();
    size_t step = formed && below(16) ? form.step : any_step(&m);
    uint32_t first = refused(&m, step);
    if (!first && !small(&m)) return;
    if (!first && step > 1 && !steps_are_loaded()) first = 22;
    size_t needed = refused(&m, step) ? 8 : model_store(&m), len = needed + below(SURPLUS + 1);
    if (!below(12) && len) len--;
    if (len > 4096) return;
    for (size_t i = 0; i < len; i++) l->store[i] = (int32_t)i;
    l->store_len = len;
    uint64_t *lent = area_lend(&state_area, l->state, sizeof l->state, at_end());
    int32_t *store = area_lend(&store_area, l->store, len * sizeof *store, at_end());
    uint32_t answer = terrain_load_set_up(lent, shape_of(&m), step, store, len);
    area_back(&state_area), area_back(&store_area);
    if (!first && len < needed) first = 5;
    HOLDS(answer == first);
    if (answer) HOLDS(area_is(&state_area, l->state) && area_is(&store_area, l->store));
    l->good = 0;
    if (answer) return;
    for (size_t i = 0; i < len; i++) HOLDS(store[i] == (i < needed ? 0 : (int32_t)i));
    memcpy(l->state, lent, sizeof l->state);
    memcpy(l->store, store, len * sizeof *store);
    l->store_needed = needed;
    l->row_needed = (m.across.length + 1) / 2;
    l->row_len = l->row_needed + below(SURPLUS + 1);
    l->form.map = m, l->form.step = step;
    find_order(&l->form);
    HOLDS(shadow_set_up(&l->shadow, &m, step) == 0);
    l->reading.form = &l->form;
    l->reading.length = l->reading.row = l->reading.done = l->reading.group = 0;
    l->over = 0, l->at = 0, l->good = 1;
}

static uint32_t wanted(const Loader *l)
{
    uint64_t want = shadow_want(&l->shadow, NULL);
    if (want == TERRAIN_WANT_DONE) return l->over ? TERRAIN_WANT_DONE : TERRAIN_WANT_BYTES;
    return want == TERRAIN_WANT_ROW ? TERRAIN_WANT_BYTES : (uint32_t)want;
}

static void want(Loader *l)
{
    const uint64_t *state = area_lend(&state_area, l->state, sizeof l->state, at_end());
    uint32_t *said = area_lend(&small_area, NULL, sizeof *said, at_end());
    uint32_t answer = terrain_load_want(state, said);
    area_back(&state_area), area_back(&small_area);
    HOLDS(area_is(&state_area, l->state) && answer <= 1);
    if (answer) HOLDS(area_unset(&small_area, 0));
    else HOLDS(*said <= TERRAIN_WANT_ENDED);
    if (l->good) HOLDS(answer == 0 && *said == wanted(l));
}

/* What the taking call must say of this run: its answer, and in *taken how many. */
static uint32_t taking(Loader *l, const uint8_t *run, size_t n, size_t *taken)
{
    *taken = 0;
    if (lent_len < l->store_needed || lent_row_len < l->row_needed) return 5;
    if (wanted(l) == TERRAIN_WANT_ENDED) return 9;
    if (wanted(l) != TERRAIN_WANT_BYTES) return 8;
    for (; *taken < n && wanted(l) == TERRAIN_WANT_BYTES; ++*taken) {
        int32_t row[64];
        size_t at = l->reading.row;
        Next next = read_byte(&l->reading, run[*taken]);
        if (next == NO_SUCH || next == TOO_LARGE) return *taken ? 0 : next == NO_SUCH ? 22 : 7;
        if (next == FILE_OVER) l->over = 1;
        if (next != ROW_OVER) continue;
        for (size_t i = 0; i < l->form.rows[at].length; i++) row[i] = (int32_t)l->reading.values[i];
        uint32_t fed = terrain_reader_feed(l->shadow.state, l->shadow.store, 4096, row, l->form.rows[at].length);
        HOLDS(fed == 0 || fed == 14);
        if (fed) return 14;
    }
    return 0;
}

static void take(Loader *l)
{
    uint8_t bytes[600];
    size_t n = below(4) ? below(24) : wide(2) % 600, taken = 0;
    for (size_t i = 0; i < n; i++) bytes[i] = l->good && formed && l->at + i < offered_length ? offered[l->at + i] : (uint8_t)(i * 37);
    if (n && !below(40)) bytes[byte() % n] = (uint8_t)byte();
    lend(l);
    const uint8_t *run = area_lend(&run_area, bytes, n, at_end());
    size_t *said = area_lend(&small_area, NULL, sizeof *said, at_end());
    uint32_t answer = terrain_load_take(lent_state, lent_store, lent_len, lent_row, lent_row_len, run, n, said);
    area_back(&run_area), area_back(&small_area);
    HOLDS(area_is(&run_area, bytes));
    HOLDS(answer <= 1 || answer == 5 || answer == 7 || answer == 8 || answer == 9 || answer == 14 || answer == 22);
    HOLDS(answer && answer != 14 ? area_unset(&small_area, 0) : *said <= n);
    uint32_t must = l->good ? taking(l, bytes, n, &taken) : answer;
    HOLDS(answer == must);
    if (l->good && (!answer || answer == 14)) HOLDS(*said == taken);
    back(l, answer);
    if (l->good) l->at += taken;
}

static void draw(Loader *l)
{
    size_t width = l->good ? l->form.map.across.length : 40, room = below(4) ? width + below(3) : below(48), drawn = 0;
    uint16_t expected[64];
    lend(l);
    uint16_t *out = area_lend(&out_area, NULL, room * sizeof *out, at_end());
    size_t *said = area_lend(&small_area, NULL, sizeof *said, at_end());
    uint32_t answer = terrain_load_draw(lent_state, lent_store, lent_len, out, room, said), must = answer;
    area_back(&out_area), area_back(&small_area);
    HOLDS(answer <= 1 || answer == 5 || answer == 9 || answer == 12 || answer == 14);
    if (answer) HOLDS(area_unset(&small_area, 0));
    else drawn = *said;
    HOLDS(drawn <= room && area_unset(&out_area, drawn * sizeof *out));
    if (l->good) {
        size_t length = 0;
        if (lent_len < l->store_needed) must = 5;
        else if (wanted(l) == TERRAIN_WANT_ENDED) must = 9;
        else if (wanted(l) == TERRAIN_WANT_DRAW && room < width) must = 12;
        else must = terrain_reader_draw(l->shadow.state, l->shadow.store, 4096, expected, 64, &length);
        HOLDS(answer == must && (answer || (drawn == length && memcmp(out, expected, drawn * sizeof *out) == 0)));
    }
    back(l, answer);
}

/* As a program would, to the end or to what is turned away; a file that is Done is its plane's own. */
static void load_on(Loader *l)
{
    if (!l->good) load_set_up(l);
    for (int i = 0; i < 120 && l->good; i++) {
        uint32_t next = wanted(l);
        if (next == TERRAIN_WANT_DRAW) draw(l);
        else if (next == TERRAIN_WANT_BYTES && l->at < offered_length) take(l);
        else break;
    }
    if (l->good) want(l);
}

/* ---- lies */

static void scribble(Loader *l)
{
    unsigned how = below(4);
    l->good = 0;
    if (!l->store_len) l->store_len = 200, l->row_len = 20;
    if (how < 2) l->state[byte() % 32] = number();
    if (how == 2) l->store[wide(2) % l->store_len] = word();
    if (how == 3 && l->row_len) l->row[byte() % l->row_len] = word();
}

static void scribble_saver(void)
{
    saver_good = 0;
    saver[byte() % 32] = number();
}

/* A saver that goes on with another plane is no good any more; loaders have their own. */
static void replaced(void)
{
    new_plane();
    saver_good = 0;
}

static void call(void)
{
    unsigned which = byte();
    Loader *l = &loaders[which / 32 % LOADERS];
    switch (which % 32) {
    case 0: case 1: replaced(); break;
    case 2: case 3: save_set_up(); break;
    case 4: case 5: case 6: case 7: case 8: save(); break;
    case 9: case 10: header(); break;
    case 11: case 12: load_set_up(l); break;
    case 13: case 14: want(l); break;
    case 15: case 16: case 17: case 18: case 19: case 20: take(l); break;
    case 21: case 22: case 23: draw(l); break;
    case 24: scribble(l); break;
    case 25: if (below(2)) scribble_saver(); else scribble(l); break;
    case 26: if (formed) damage(); break;
    case 27: save_on(); break;
    default: load_on(l); break;
    }
}

int LLVMFuzzerTestOneInput(const uint8_t *data, size_t size)
{
    input = data, input_end = data + size;
    memset(saver, 0, sizeof saver);
    saver_good = formed = 0;
    for (int i = 0; i < LOADERS; i++) {
        loaders[i].good = 0, loaders[i].store_len = loaders[i].row_len = 0;
        memset(loaders[i].state, 0, sizeof loaders[i].state);
    }
    replaced();
    for (int i = 0; i < STEPS && input < input_end; i++) call();
    return 0;
}
