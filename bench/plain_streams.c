/* Streams in plain C, row-wise: four lines a level, u16 in or out, sums of 32 bits, and neither questions nor tests. Rows in their own order;
   row r of a level in line r % 4. Compiled once for each SIDE. */
#include "lifting.h"
#include "streams.h"
#include <stdlib.h>

static struct Level {
    size_t w, h, rows, sets, made;
    int32_t *line[4];
} levels[LEVELS];

static void start(void)
{
    for (size_t k = 0; k < LEVELS; k++) {
        struct Level *l = &levels[k];
        l->w = side(W, k), l->h = side(H, k), l->rows = l->sets = l->made = 0;
        for (int i = 0; i < 4 && !l->line[i]; i++)
            if (!(l->line[i] = malloc(l->w * sizeof **l->line))) exit(1);
    }
}

static void predict(int32_t *restrict t, const int32_t *l, const int32_t *r, size_t n)
{
    for (size_t i = 0; i < n; i++) t[i] -= half(l[i], r[i]);
}

static void update(int32_t *restrict t, const int32_t *l, const int32_t *r, size_t n)
{
    for (size_t i = 0; i < n; i++) t[i] += quarter(l[i], r[i]);
}

static void unupdate(int32_t *restrict t, const int32_t *l, const int32_t *r, size_t n)
{
    for (size_t i = 0; i < n; i++) t[i] -= quarter(l[i], r[i]);
}

static void unpredict(int32_t *restrict t, const int32_t *l, const int32_t *r, size_t n)
{
    for (size_t i = 0; i < n; i++) t[i] += half(l[i], r[i]);
}

/* a row to its low and high values */
static void lift_row(const int32_t *restrict row, int32_t *restrict low, int32_t *restrict high, size_t n)
{
    size_t lows = n - n / 2, highs = n / 2;
    for (size_t i = 0; i < lows; i++) low[i] = row[2 * i];
    for (size_t i = 0; i < highs; i++) high[i] = row[2 * i + 1];
    if (n < 2) return;
    for (size_t i = 0; i + 1 < lows; i++) high[i] -= half(low[i], low[i + 1]);
    if (highs == lows) high[highs - 1] -= low[lows - 1];
    low[0] += quarter(high[0], high[0]);
    for (size_t i = 1; i < highs; i++) low[i] += quarter(high[i - 1], high[i]);
    if (highs < lows) low[lows - 1] += quarter(high[highs - 1], high[highs - 1]);
}

static void unlift_row(const int32_t *low, const int32_t *high, int32_t *restrict row, size_t n)
{
    static int32_t even[W / 2 + 1], odd[W / 2 + 1];
    size_t lows = n - n / 2, highs = n / 2;
    memcpy(even, low, lows * sizeof *low);
    if (n > 1) {
        memcpy(odd, high, highs * sizeof *high);
        even[0] -= quarter(odd[0], odd[0]);
        for (size_t i = 1; i < highs; i++) even[i] -= quarter(odd[i - 1], odd[i]);
        if (highs < lows) even[lows - 1] -= quarter(odd[highs - 1], odd[highs - 1]);
        for (size_t i = 0; i + 1 < lows; i++) odd[i] += half(even[i], even[i + 1]);
        if (highs == lows) odd[highs - 1] += even[lows - 1];
    }
    for (size_t i = 0; i < lows; i++) row[2 * i] = even[i];
    for (size_t i = 0; i < highs; i++) row[2 * i + 1] = odd[i];
}

static void arrive(size_t k);

/* set n of a level; `after` is row 2n + 2 or its mirror, none where the set has no high row */
static void make(size_t k, size_t n, const int32_t *after)
{
    struct Level *l = &levels[k];
    int32_t *s = l->line[2 * n % 4], *d = l->line[(2 * n + 1) % 4], *before = n ? l->line[(2 * n - 1) % 4] : d;
    size_t low = l->w - l->w / 2;
    if (after) predict(d, s, after, l->w);
    if (after || n) update(s, before, after ? d : before, l->w);
    lift_row(s, out, out + low, l->w);
    if (k + 1 == LEVELS) come(k + 1, 0, n, out, low);
    come(k + 1, 1, n, out + low, l->w - low);
    if (k + 1 < LEVELS) memcpy(levels[k + 1].line[levels[k + 1].rows % 4], out, low * sizeof *out);
    if (after) {
        lift_row(d, out, out + low, l->w);
        come(k + 1, 2, n, out, low);
        come(k + 1, 3, n, out + low, l->w - low);
    }
    if (k + 1 < LEVELS) arrive(k + 1);
}

static void arrive(size_t k)
{
    struct Level *l = &levels[k];
    size_t m = l->rows++;
    if (m >= 2 && m % 2 == 0) make(k, m / 2 - 1, l->line[m % 4]);
}

void plain_write(void)
{
    start();
    for (size_t r = 0; r < H; r++) {
        int32_t *row = levels[0].line[r % 4];
        for (size_t i = 0; i < W; i++) row[i] = heights[r * W + i];
        arrive(0);
    }
    for (size_t k = 0; k < LEVELS; k++) {
        size_t m = levels[k].rows, n = (m + 1) / 2 - 1;
        make(k, n, m % 2 ? NULL : levels[k].line[2 * n % 4]);
    }
}

static const int32_t *next_row(size_t k);

static void work_out(size_t k)
{
    struct Level *l = &levels[k];
    size_t n = l->sets++;
    int high = 2 * n + 1 < l->h;
    int32_t *even = l->line[2 * n % 4], *odd = l->line[(2 * n + 1) % 4], *before = n ? l->line[(2 * n - 1) % 4] : odd;
    const int32_t *low = k + 1 == LEVELS ? plane + place(k + 1, 0, n) : next_row(k + 1);
    unlift_row(low, plane + place(k + 1, 1, n), even, l->w);
    if (high) unlift_row(plane + place(k + 1, 2, n), plane + place(k + 1, 3, n), odd, l->w);
    if (l->h > 1) unupdate(even, before, high ? odd : before, l->w);
    if (n) unpredict(before, l->line[(2 * n - 2) % 4], even, l->w);
    l->made = 2 * n + 1;
    if (2 * n + 2 == l->h) unpredict(odd, even, even, l->w), l->made++;
}

static const int32_t *next_row(size_t k)
{
    struct Level *l = &levels[k];
    size_t r = l->rows++;
    if (r >= l->made) work_out(k);
    return l->line[r % 4];
}

void plain_read(void)
{
    start();
    for (size_t r = 0; r < H; r++) {
        const int32_t *row = next_row(0);
        for (size_t i = 0; i < W; i++) back[r * W + i] = (uint16_t)row[i];
    }
}
