/* Streams by the integer 9/7 in plain C, row-wise, as plain_streams.c has the 5/3: eight lines a level, u16 in or out, sums of 32 bits, and neither
   questions nor tests. Rows in their own order; row r of a level in line r % 8. Compiled once for each SIDE. */
#include "lifting_nine_seven.h"
#include "streams.h"
#include <stdlib.h>

static struct Level {
    size_t w, h, rows, sets, made;
    int32_t *line[8];
} levels[LEVELS];

static int32_t low_row[W], evens[W / 2 + 8];

static void start(void)
{
    for (size_t k = 0; k < LEVELS; k++) {
        struct Level *l = &levels[k];
        l->w = side(W, k), l->h = side(H, k), l->rows = l->sets = l->made = 0;
        for (int i = 0; i < 8 && !l->line[i]; i++)
            if (!(l->line[i] = malloc(l->w * sizeof **l->line))) exit(1);
    }
}

static void predict(int32_t *restrict t, const int32_t *l, const int32_t *r, const int32_t *ll, const int32_t *rr, size_t n)
{
    for (size_t i = 0; i < n; i++) t[i] -= foretold(l[i], r[i], ll[i], rr[i]);
}

static void update(int32_t *restrict t, const int32_t *s, const int32_t *l, const int32_t *r, size_t n)
{
    for (size_t i = 0; i < n; i++) t[i] = s[i] + quarter(l[i], r[i]);
}

static void unupdate(int32_t *restrict t, const int32_t *l, const int32_t *r, size_t n)
{
    for (size_t i = 0; i < n; i++) t[i] -= quarter(l[i], r[i]);
}

static void unpredict(int32_t *restrict t, const int32_t *l, const int32_t *r, const int32_t *ll, const int32_t *rr, size_t n)
{
    for (size_t i = 0; i < n; i++) t[i] += foretold(l[i], r[i], ll[i], rr[i]);
}

/* the even numbers of a line of n, lows of them, and their mirror at both ends */
static void margins(int32_t *e, size_t n, size_t lows)
{
    int32_t before = e[mirrored(-2, n) / 2], after = e[mirrored((ptrdiff_t)(2 * lows), n) / 2], next = e[mirrored((ptrdiff_t)(2 * lows + 2), n) / 2];
    e[-1] = before, e[lows] = after, e[lows + 1] = next;
}

/* a row to its low and high values */
static void lift_row(const int32_t *restrict row, int32_t *restrict low, int32_t *restrict high, size_t n)
{
    size_t lows = n - n / 2, highs = n / 2;
    int32_t *restrict e = evens + 4;
    for (size_t i = 0; i < lows; i++) e[i] = row[2 * i];
    low[0] = e[0];
    if (n < 2) return;
    margins(e, n, lows);
    for (size_t i = 0; i < highs; i++) high[i] = row[2 * i + 1] - foretold(e[i], e[i + 1], e[(ptrdiff_t)i - 1], e[i + 2]);
    low[0] = e[0] + quarter(high[0], high[0]);
    for (size_t i = 1; i < highs; i++) low[i] = e[i] + quarter(high[i - 1], high[i]);
    if (highs < lows) low[lows - 1] = e[lows - 1] + quarter(high[highs - 1], high[highs - 1]);
}

static void unlift_row(const int32_t *restrict low, const int32_t *restrict high, int32_t *restrict row, size_t n)
{
    size_t lows = n - n / 2, highs = n / 2;
    int32_t *restrict e = evens + 4;
    row[0] = low[0];
    if (n < 2) return;
    e[0] = low[0] - quarter(high[0], high[0]);
    for (size_t i = 1; i < highs; i++) e[i] = low[i] - quarter(high[i - 1], high[i]);
    if (highs < lows) e[lows - 1] = low[lows - 1] - quarter(high[highs - 1], high[highs - 1]);
    margins(e, n, lows);
    for (size_t i = 0; i < highs; i++) row[2 * i] = e[i], row[2 * i + 1] = high[i] + foretold(e[i], e[i + 1], e[(ptrdiff_t)i - 1], e[i + 2]);
    if (highs < lows) row[n - 1] = e[lows - 1];
}

static void arrive(size_t k);

/* the line of the row of m rows that row r is mirrored to */
static int32_t *row_at(struct Level *l, ptrdiff_t r, size_t m) { return l->line[mirrored(r, m) % 8]; }

/* set n of a level of which m rows are there, the last of them row 2n + 4 or the level's own last */
static void make(size_t k, size_t n, size_t m)
{
    struct Level *l = &levels[k];
    ptrdiff_t at = (ptrdiff_t)(2 * n);
    int32_t *s = l->line[2 * n % 8], *d = l->line[(2 * n + 1) % 8], *before = n ? l->line[(2 * n - 1) % 8] : d;
    size_t low = l->w - l->w / 2;
    int high = 2 * n + 1 < m;
    if (high) predict(d, s, row_at(l, at + 2, m), row_at(l, at - 2, m), row_at(l, at + 4, m), l->w);
    if (high || n) update(low_row, s, before, high ? d : before, l->w);
    else memcpy(low_row, s, l->w * sizeof *s);
    lift_row(low_row, out, out + low, l->w);
    if (k + 1 == LEVELS) come(k + 1, 0, n, out, low);
    come(k + 1, 1, n, out + low, l->w - low);
    if (k + 1 < LEVELS) memcpy(levels[k + 1].line[levels[k + 1].rows % 8], out, low * sizeof *out);
    if (high) {
        lift_row(d, out, out + low, l->w);
        come(k + 1, 2, n, out, low);
        come(k + 1, 3, n, out + low, l->w - low);
    }
    l->sets++;
    if (k + 1 < LEVELS) arrive(k + 1);
}

static void arrive(size_t k)
{
    struct Level *l = &levels[k];
    size_t m = l->rows++;
    if (m >= 4 && m % 2 == 0) make(k, m / 2 - 2, m + 1);
}

void plain_write(void)
{
    start();
    for (size_t r = 0; r < H; r++) {
        int32_t *row = levels[0].line[r % 8];
        for (size_t i = 0; i < W; i++) row[i] = heights[r * W + i];
        arrive(0);
    }
    for (size_t k = 0; k < LEVELS; k++)
        while (2 * levels[k].sets < levels[k].rows) make(k, levels[k].sets, levels[k].rows);
}

static const int32_t *next_row(size_t k);

/* set n: row 2n, and row 2n - 3, which goes by it; the last set also the high rows that are left */
static void work_out(size_t k)
{
    struct Level *l = &levels[k];
    size_t n = l->sets++, h = l->h;
    int high = 2 * n + 1 < h, last = 2 * n + 2 >= h;
    int32_t *even = l->line[2 * n % 8], *odd = l->line[(2 * n + 1) % 8], *before = n ? l->line[(2 * n - 1) % 8] : odd;
    const int32_t *low = k + 1 == LEVELS ? plane + place(k + 1, 0, n) : next_row(k + 1);
    unlift_row(low, plane + place(k + 1, 1, n), even, l->w);
    if (high) unlift_row(plane + place(k + 1, 2, n), plane + place(k + 1, 3, n), odd, l->w);
    if (h > 1) unupdate(even, before, high ? odd : before, l->w);
    for (size_t r = n > 1 ? 2 * n - 3 : 1; r < (last ? h : 2 * n - 2) && (n > 1 || last); r += 2) {
        ptrdiff_t at = (ptrdiff_t)r;
        unpredict(l->line[r % 8], l->line[(r - 1) % 8], row_at(l, at + 1, h), row_at(l, at - 3, h), row_at(l, at + 3, h), l->w);
    }
    l->made = last ? h : n > 1 ? 2 * n - 1 : 1;
}

static const int32_t *next_row(size_t k)
{
    struct Level *l = &levels[k];
    size_t r = l->rows++;
    while (r >= l->made) work_out(k);
    return l->line[r % 8];
}

void plain_read(void)
{
    start();
    for (size_t r = 0; r < H; r++) {
        const int32_t *row = next_row(0);
        for (size_t i = 0; i < W; i++) back[r * W + i] = (uint16_t)row[i];
    }
}
