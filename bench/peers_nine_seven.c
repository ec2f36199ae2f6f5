/* The loops of the integer 9/7's lines and rows: see peers.h. This file is compiled twice, with KIND and WIDE given on the command line. */
#define SUM WIDE
#include "lifting_nine_seven.h"
#include "peers.h"

#define JOIN2(a, b) a##_##b
#define JOIN(a, b) JOIN2(a, b)
#define NAME(f) JOIN(KIND, f)

static inline int32_t more(int32_t x, int32_t f) { return (int32_t)((WIDE)x + f); }
static inline int32_t less(int32_t x, int32_t f) { return (int32_t)((WIDE)x - f); }

void NAME(predict_row_nine_seven)(int32_t *restrict t, const int32_t *restrict l, const int32_t *restrict r, const int32_t *restrict ll,
                          const int32_t *restrict rr, size_t n)
{
    for (size_t i = 0; i < n; i++) t[i] = less(t[i], foretold(l[i], r[i], ll[i], rr[i]));
}

void NAME(update_row_nine_seven)(int32_t *restrict t, const int32_t *restrict l, const int32_t *restrict r, size_t n)
{
    for (size_t i = 0; i < n; i++) t[i] = more(t[i], quarter(l[i], r[i]));
}

void NAME(unupdate_row_nine_seven)(int32_t *restrict t, const int32_t *restrict l, const int32_t *restrict r, size_t n)
{
    for (size_t i = 0; i < n; i++) t[i] = less(t[i], quarter(l[i], r[i]));
}

void NAME(unpredict_row_nine_seven)(int32_t *restrict t, const int32_t *restrict l, const int32_t *restrict r, const int32_t *restrict ll,
                            const int32_t *restrict rr, size_t n)
{
    for (size_t i = 0; i < n; i++) t[i] = more(t[i], foretold(l[i], r[i], ll[i], rr[i]));
}

/* what the low values of a line of n foretell of high value i, some of them mirrored */
static inline int32_t at_an_end(const int32_t *low, size_t n, size_t i)
{
    ptrdiff_t at = (ptrdiff_t)(2 * i);
    return foretold(low[i], low[mirrored(at + 2, n) / 2], low[mirrored(at - 2, n) / 2], low[mirrored(at + 4, n) / 2]);
}

/* the first high value that is at the line's end */
static inline size_t end_from(size_t lows) { return lows > 3 ? lows - 2 : 1; }

void NAME(lift_nine_seven)(int32_t *line, size_t n)
{
    size_t lows = n - n / 2, highs = n / 2;
    int32_t *restrict low = line, *restrict high = line + lows;
    if (n < 2) return;
    high[0] = less(high[0], at_an_end(low, n, 0));
    for (size_t i = 1; i + 2 < lows; i++) high[i] = less(high[i], foretold(low[i], low[i + 1], low[i - 1], low[i + 2]));
    for (size_t i = end_from(lows); i < highs; i++) high[i] = less(high[i], at_an_end(low, n, i));
    low[0] = more(low[0], quarter(high[0], high[0]));
    for (size_t i = 1; i < highs; i++) low[i] = more(low[i], quarter(high[i - 1], high[i]));
    if (highs < lows) low[lows - 1] = more(low[lows - 1], quarter(high[highs - 1], high[highs - 1]));
}

void NAME(unlift_nine_seven)(int32_t *line, size_t n)
{
    size_t lows = n - n / 2, highs = n / 2;
    int32_t *restrict low = line, *restrict high = line + lows;
    if (n < 2) return;
    low[0] = less(low[0], quarter(high[0], high[0]));
    for (size_t i = 1; i < highs; i++) low[i] = less(low[i], quarter(high[i - 1], high[i]));
    if (highs < lows) low[lows - 1] = less(low[lows - 1], quarter(high[highs - 1], high[highs - 1]));
    high[0] = more(high[0], at_an_end(low, n, 0));
    for (size_t i = 1; i + 2 < lows; i++) high[i] = more(high[i], foretold(low[i], low[i + 1], low[i - 1], low[i + 2]));
    for (size_t i = end_from(lows); i < highs; i++) high[i] = more(high[i], at_an_end(low, n, i));
}

void NAME(forward_nine_seven)(const int32_t *restrict line, int32_t *restrict out, size_t n)
{
    size_t lows = n - n / 2;
    for (size_t i = 0; i < lows; i++) out[i] = line[2 * i];
    for (size_t i = 0; i < n / 2; i++) out[lows + i] = line[2 * i + 1];
    NAME(lift_nine_seven)(out, n);
}

void NAME(backward_nine_seven)(const int32_t *restrict coefficients, int32_t *restrict out, size_t n)
{
    enum { MOST = 4096 };
    static int32_t halves[MOST];
    size_t lows = n - n / 2;
    if (n > MOST) return;
    for (size_t i = 0; i < n; i++) halves[i] = coefficients[i];
    NAME(unlift_nine_seven)(halves, n);
    for (size_t i = 0; i < n / 2; i++) out[2 * i] = halves[i], out[2 * i + 1] = halves[lows + i];
    if (n % 2) out[n - 1] = halves[lows - 1];
}
