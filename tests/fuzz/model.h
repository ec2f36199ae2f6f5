/* What the calls must give, written straight from T.800, document 02 and the header, without a thought for speed, and knowing nothing of the library. */
#ifndef MODEL_H
#define MODEL_H

#include <stddef.h>
#include <stdint.h>
#include <stdlib.h>
#include <string.h>

enum { LL, HL, LH, HH, MOST_WIDTH = 2049, MOST_LEVELS = 5, MOST_ORIGIN = 65535, FILTERS = 2 };

static const uint64_t MOST_HEIGHT = 4294967295;

/* The filters by their numbers: the 5/3 and the integer 9/7. Set n is made with row 2n + 2 * ahead. */
static const struct {
    size_t levels, rows, ahead;
    int64_t growth;
} filters[FILTERS] = { { 5, 4, 1, 4 }, { 4, 8, 2, 6 } };

/* Rows or columns on the grid: even coordinates are low. */
typedef struct {
    size_t start, length;
} Side;

/* A map; of one that a set-up refuses any number may be wrong. */
typedef struct {
    Side across, down;
    size_t levels, filter;
} Map;

static inline Side side(Side s, size_t level)
{
    size_t from = s.start, to = s.start + s.length;
    while (level--) from = (from + 1) / 2, to = (to + 1) / 2;
    return (Side){ from, to - from };
}

static inline int64_t range(const Map *m, size_t level)
{
    int64_t reach = 65535;
    while (level--) reach *= filters[m->filter].growth;
    return reach;
}

static inline int64_t floored(int64_t a, int64_t b)
{
    return a / b - (a % b < 0);
}

static inline int32_t stored(int64_t sum)
{
    uint32_t bits = (uint32_t)(uint64_t)sum;
    return bits < 0x80000000u ? (int32_t)bits : (int32_t)((int64_t)bits - 0x100000000);
}

static inline int64_t mirrored(const int32_t *x, int64_t place, size_t n)
{
    int64_t last = (int64_t)n - 1;
    while (place < 0 || place > last) place = place < 0 ? -place : 2 * last - place;
    return x[place];
}

/* The two steps over the places of one parity, the first of them `first`. */
static inline void high_step(int32_t *x, size_t n, size_t first, size_t filter, int sign)
{
    for (size_t p = first; p < n; p += 2) {
        int64_t at = (int64_t)p, near = mirrored(x, at - 1, n) + mirrored(x, at + 1, n), far = mirrored(x, at - 3, n) + mirrored(x, at + 3, n);
        x[p] = stored(x[p] - sign * (filter ? floored(9 * near - far + 8, 16) : floored(near, 2)));
    }
}

static inline void low_step(int32_t *x, size_t n, size_t first, size_t filter, int sign)
{
    for (size_t p = first; p < n; p += 2) {
        int64_t around = mirrored(x, (int64_t)p - 1, n) + mirrored(x, (int64_t)p + 1, n);
        x[p] = stored(x[p] + sign * (filter ? -floored(2 - around, 4) : floored(around + 2, 4)));
    }
}

/* A line, `stride` apart in memory, to its low and then its high values, or back: 0 where a lone value at an odd coordinate has no half. */
static inline int model_line(int32_t *line, size_t n, size_t stride, size_t start, size_t filter, int forward)
{
    size_t odd = start % 2, low = side((Side){ odd, n }, 1).length;
    if (!n) return 1;
    if (n == 1) {
        int halves = forward || !odd || *line % 2 == 0;
        if (odd) *line = forward ? stored(2 * (int64_t)*line) : (int32_t)floored(*line, 2);
        return halves;
    }
    int32_t *x = malloc(n * sizeof *x);
    if (!x) abort();
    for (size_t p = 0; p < n; p++) x[p] = line[(forward ? p : p % 2 == odd ? p / 2 : low + p / 2) * stride];
    if (forward) high_step(x, n, 1 - odd, filter, 1), low_step(x, n, odd, filter, 1);
    else low_step(x, n, odd, filter, -1), high_step(x, n, 1 - odd, filter, -1);
    for (size_t p = 0; p < n; p++) line[(forward ? p % 2 == odd ? p / 2 : low + p / 2 : p) * stride] = x[p];
    free(x);
    return 1;
}

static inline void model_forward(const uint16_t *heights, const Map *m, int32_t *plane)
{
    size_t w = m->across.length;
    for (size_t i = 0; i < w * m->down.length; i++) plane[i] = heights[i];
    for (size_t k = 0; k < m->levels; k++) {
        Side x = side(m->across, k), y = side(m->down, k);
        for (size_t c = 0; c < x.length; c++) model_line(plane + c, y.length, w, y.start, m->filter, 1);
        for (size_t r = 0; r < y.length; r++) model_line(plane + r * w, x.length, 1, x.start, m->filter, 1);
    }
}

/* 0 and the map that has this plane; 7: a number is out of its level's range; 14: no map has it. */
static inline uint32_t model_backward(const int32_t *plane, const Map *m, uint16_t *heights)
{
    size_t w = m->across.length, n = w * m->down.length;
    uint32_t answer = 0;
    int32_t *x = malloc(n * sizeof *x);
    if (!x) abort();
    for (size_t i = 0; i < n; i++) {
        size_t level = 1;
        while (level < m->levels && i / w < side(m->down, level).length && i % w < side(m->across, level).length) level++;
        if (plane[i] > range(m, level) || plane[i] < -range(m, level)) answer = 7;
    }
    memcpy(x, plane, n * sizeof *x);
    for (size_t k = m->levels; k-- > 0;) {
        Side a = side(m->across, k), d = side(m->down, k);
        for (size_t r = 0; r < d.length; r++) model_line(x + r * w, a.length, 1, a.start, m->filter, 0);
        for (size_t c = 0; c < a.length; c++) model_line(x + c, d.length, w, d.start, m->filter, 0);
    }
    for (size_t i = 0; i < n; i++) {
        if (!answer && (x[i] < 0 || x[i] > 65535)) answer = 14;
        heights[i] = (uint16_t)x[i];
    }
    if (!answer) {
        model_forward(heights, m, x);
        if (memcmp(x, plane, n * sizeof *x)) answer = 14;
    }
    free(x);
    return answer;
}

/* LL of level `stop`, compact, that the levels after it rebuild: 0, 7 (a number of them is out of range), 14 (no LL in its range has them). */
static inline uint32_t model_approximation(const int32_t *plane, const Map *m, size_t stop, int32_t *grid)
{
    Map rest = *m;
    size_t w = m->across.length, n = w * m->down.length, columns = side(m->across, stop).length, rows = side(m->down, stop).length;
    uint32_t answer = 0;
    int32_t *x = malloc(2 * n * sizeof *x), *again = x + n;
    if (!x) abort();
    memcpy(x, plane, n * sizeof *x);
    for (size_t i = 0; i < n; i++) {
        size_t level = stop + 1;
        if (i / w >= rows || i % w >= columns) continue;
        while (level < m->levels && i / w < side(m->down, level).length && i % w < side(m->across, level).length) level++;
        if (level > m->levels) level = m->levels;
        if (plane[i] > range(m, level) || plane[i] < -range(m, level)) answer = 7;
    }
    for (size_t k = m->levels; k-- > stop;) {
        Side a = side(m->across, k), d = side(m->down, k);
        for (size_t r = 0; r < d.length; r++) model_line(x + r * w, a.length, 1, a.start, m->filter, 0);
        for (size_t c = 0; c < a.length; c++) model_line(x + c, d.length, w, d.start, m->filter, 0);
    }
    memcpy(again, x, n * sizeof *x);
    for (size_t i = 0; i < rows * columns; i++) {
        grid[i] = x[i / columns * w + i % columns];
        if (!answer && stop < m->levels && (grid[i] > range(m, stop) || grid[i] < -range(m, stop))) answer = 14;
    }
    for (size_t k = stop; k < rest.levels; k++) {
        Side a = side(m->across, k), d = side(m->down, k);
        for (size_t c = 0; c < a.length; c++) model_line(again + c, d.length, w, d.start, m->filter, 1);
        for (size_t r = 0; r < d.length; r++) model_line(again + r * w, a.length, 1, a.start, m->filter, 1);
    }
    if (!answer && memcmp(again, plane, n * sizeof *again)) answer = 14;
    free(x);
    return answer;
}

/* Questions 2, 18 and 4. */
static inline uint32_t streamable(const Map *m)
{
    if (m->across.length < 1 || m->across.length > MOST_WIDTH) return 2;
    if (m->filter >= FILTERS) return 18;
    return m->levels < 1 || m->levels > filters[m->filter].levels ? 4 : 0;
}

/* The numbers that the stretches of the first `levels` levels have. */
static inline size_t stretches(const Map *m, size_t levels)
{
    size_t n = 0;
    for (size_t k = 0; k < levels; k++) n += filters[m->filter].rows * side(m->across, k).length;
    return n;
}

static inline size_t model_store(const Map *m)
{
    return streamable(m) ? 0 : stretches(m, m->levels);
}

/* A writer has one more row of the map's columns, for heights that are offered while rows wait. */
static inline size_t model_writer_store(const Map *m)
{
    return streamable(m) ? 0 : stretches(m, m->levels) + m->across.length;
}

/* ---- rounding, and its figure: the 5/3, origin 0 */

static inline int in_last_ll(const Map *m, size_t i)
{
    size_t w = m->across.length;
    return i / w < side(m->down, m->levels).length && i % w < side(m->across, m->levels).length;
}

static inline void model_round(int32_t *plane, const Map *m, int64_t step)
{
    for (size_t i = 0; i < m->across.length * m->down.length; i++)
        if (!in_last_ll(m, i)) plane[i] = (int32_t)(plane[i] / step * step); /* C's division goes toward zero */
}

static inline size_t model_bound(size_t levels, size_t step)
{
    size_t e = step - 1, f = 0, b = 2 * e + (e + 1) / 2;
    while (levels--) f = f + e + (e + 1) / 2 + b + (b + 1) / 2;
    return f;
}

/* ---- the tolerant reader: each rebuilt value is limited before further use, in a column the even ones before the odd ones that are rebuilt from them */

static inline void limit_places(int32_t *x, size_t n, size_t first, int64_t least, int64_t most)
{
    for (size_t p = first; p < n; p += 2) x[p] = (int32_t)(x[p] < least ? least : x[p] > most ? most : x[p]);
}

static inline void model_column_limited(int32_t *line, size_t n, size_t stride, int64_t least, int64_t most)
{
    size_t low = (n + 1) / 2;
    int32_t *x = malloc(n * sizeof *x);
    if (!x) abort();
    for (size_t p = 0; p < n; p++) x[p] = line[(p % 2 ? low + p / 2 : p / 2) * stride];
    if (n > 1) low_step(x, n, 0, 0, -1);
    limit_places(x, n, 0, least, most);
    if (n > 1) high_step(x, n, 1, 0, -1);
    limit_places(x, n, 1, least, most);
    for (size_t p = 0; p < n; p++) line[p * stride] = x[p];
    free(x);
}

/* What it rebuilds of a plane whose numbers are in their ranges. */
static inline void model_tolerant(const int32_t *plane, const Map *m, uint16_t *heights)
{
    size_t w = m->across.length, n = w * m->down.length;
    int32_t *x = malloc(n * sizeof *x);
    if (!x) abort();
    memcpy(x, plane, n * sizeof *x);
    for (size_t k = m->levels; k-- > 0;) {
        Side a = side(m->across, k), d = side(m->down, k);
        for (size_t r = 0; r < d.length; r++) model_line(x + r * w, a.length, 1, 0, 0, 0);
        for (size_t c = 0; c < a.length; c++) model_column_limited(x + c, d.length, w, k ? -range(m, k) : 0, range(m, k));
    }
    for (size_t i = 0; i < n; i++) heights[i] = (uint16_t)x[i];
    free(x);
}

/* The numbers in a row of a band, and the rows of a band. */
static inline size_t in_band(Side s, size_t level, size_t high)
{
    size_t low = side(s, level).length;
    return high ? side(s, level - 1).length - low : low;
}

static inline size_t across(const Map *m, size_t level, size_t band)
{
    return in_band(m->across, level, band & 1);
}

static inline size_t down(const Map *m, size_t level, size_t band)
{
    return in_band(m->down, level, band & 2);
}

static inline size_t place(const Map *m, size_t level, size_t band, size_t row)
{
    return (row + (band & 2 ? side(m->down, level).length : 0)) * m->across.length + (band & 1 ? side(m->across, level).length : 0);
}

/* ---- the writer's order, as documents 01 and 02 tell it: rows are handed on one by one */
typedef struct {
    size_t level, band, row, length;
} Row;

typedef struct {
    Map map; /* its height is not looked at */
    size_t begun, held, complete[MOST_LEVELS + 2], sets[MOST_LEVELS + 2], first, last; /* rows that wait: first to last - 1 */
    int finished;
    Row waiting[256];
} Order;

static inline void order_arrive(Order *o, size_t level);

static inline void order_start(Order *o, const Map *m)
{
    memset(o, 0, sizeof *o);
    o->map = *m;
    for (size_t k = 1; k <= m->levels; k++) o->sets[k] = side(m->down, k - 1).start / 2;
}

/* the next set of a level */
static inline void order_make(Order *o, size_t level)
{
    size_t n = o->sets[level]++, start = side(o->map.down, level - 1).start, end = start + o->complete[level];
    for (size_t band = level == o->map.levels ? LL : HL; band <= HH; band++) {
        size_t at = 2 * n + (band >= LH), row = at / 2 - (band >= LH ? start / 2 : (start + 1) / 2), length = across(&o->map, level, band);
        if (at >= start && at < end && length) o->waiting[o->last++] = (Row){ level, band, row, length };
    }
    if (level < o->map.levels && start <= 2 * n && across(&o->map, level, LL)) order_arrive(o, level + 1);
}

static inline void order_arrive(Order *o, size_t level)
{
    size_t at = side(o->map.down, level - 1).start + o->complete[level]++;
    if (at == 2 * (o->sets[level] + filters[o->map.filter].ahead)) order_make(o, level);
}

static inline int order_waits(Order *o)
{
    if (o->first == o->last) o->first = o->last = 0;
    return o->first < o->last;
}

/* one height goes on to level 1 */
static inline void order_take(Order *o)
{
    if (++o->begun == o->map.across.length) o->begun = 0, order_arrive(o, 1);
}

static inline uint32_t order_offer(Order *o, size_t run, size_t *taken)
{
    size_t width = o->map.across.length;
    *taken = 0;
    if (o->finished) return 9;
    if (run && o->complete[1] + (o->held == width) >= MOST_HEIGHT) return 10;
    if (order_waits(o)) {
        *taken = run < width - o->held ? run : width - o->held;
        o->held += *taken;
        return 0;
    }
    for (; *taken < run && !order_waits(o) && o->complete[1] < MOST_HEIGHT; ++*taken) order_take(o);
    return 0;
}

/* the row that waits is drawn; the draw after which none waits moves on what was offered meanwhile */
static inline void order_drawn(Order *o)
{
    o->first++;
    if (order_waits(o)) return;
    for (; o->held; o->held--) order_take(o);
}

static inline uint32_t order_finish(Order *o)
{
    if (o->finished) return 9;
    if (order_waits(o)) return 8;
    if (!o->complete[1] || o->begun) return 11;
    o->finished = 1;
    for (size_t k = 1; k <= o->map.levels; k++) {
        size_t end = side(o->map.down, k - 1).start + o->complete[k];
        while (o->complete[k] && 2 * o->sets[k] < end) order_make(o, k);
    }
    return 0;
}

#endif
