/* See peers.h. This file is compiled twice, with KIND and WIDE given on the command line. */
#include "peers.h"

#define JOIN2(a, b) a##_##b
#define JOIN(a, b) JOIN2(a, b)
#define NAME(f) JOIN(KIND, f)

static inline int32_t half(int32_t a, int32_t b) { return (int32_t)(((WIDE)a + b) >> 1); }
static inline int32_t quarter(int32_t a, int32_t b) { return (int32_t)(((WIDE)a + b + 2) >> 2); }
static inline int32_t more(int32_t x, int32_t f) { return (int32_t)((WIDE)x + f); }
static inline int32_t less(int32_t x, int32_t f) { return (int32_t)((WIDE)x - f); }

void NAME(predict_row)(int32_t *restrict t, const int32_t *restrict l, const int32_t *restrict r, size_t n)
{
    for (size_t i = 0; i < n; i++) t[i] = less(t[i], half(l[i], r[i]));
}

void NAME(update_row)(int32_t *restrict t, const int32_t *restrict l, const int32_t *restrict r, size_t n)
{
    for (size_t i = 0; i < n; i++) t[i] = more(t[i], quarter(l[i], r[i]));
}

void NAME(unupdate_row)(int32_t *restrict t, const int32_t *restrict l, const int32_t *restrict r, size_t n)
{
    for (size_t i = 0; i < n; i++) t[i] = less(t[i], quarter(l[i], r[i]));
}

void NAME(unpredict_row)(int32_t *restrict t, const int32_t *restrict l, const int32_t *restrict r, size_t n)
{
    for (size_t i = 0; i < n; i++) t[i] = more(t[i], half(l[i], r[i]));
}

static inline void lift_halves(int32_t *restrict low, int32_t *restrict high, size_t lows, size_t highs)
{
    for (size_t i = 0; i + 1 < lows; i++) high[i] = less(high[i], half(low[i], low[i + 1]));
    if (highs == lows) high[highs - 1] = less(high[highs - 1], half(low[lows - 1], low[lows - 1]));
    low[0] = more(low[0], quarter(high[0], high[0]));
    for (size_t i = 1; i < highs; i++) low[i] = more(low[i], quarter(high[i - 1], high[i]));
    if (highs < lows) low[lows - 1] = more(low[lows - 1], quarter(high[highs - 1], high[highs - 1]));
}

static inline void unlift_halves(int32_t *restrict low, int32_t *restrict high, size_t lows, size_t highs)
{
    low[0] = less(low[0], quarter(high[0], high[0]));
    for (size_t i = 1; i < highs; i++) low[i] = less(low[i], quarter(high[i - 1], high[i]));
    if (highs < lows) low[lows - 1] = less(low[lows - 1], quarter(high[highs - 1], high[highs - 1]));
    for (size_t i = 0; i + 1 < lows; i++) high[i] = more(high[i], half(low[i], low[i + 1]));
    if (highs == lows) high[highs - 1] = more(high[highs - 1], half(low[lows - 1], low[lows - 1]));
}

void NAME(lift)(int32_t *line, size_t n)
{
    if (n > 1) lift_halves(line, line + (n - n / 2), n - n / 2, n / 2);
}

void NAME(unlift)(int32_t *line, size_t n)
{
    if (n > 1) unlift_halves(line, line + (n - n / 2), n - n / 2, n / 2);
}

void NAME(forward)(const int32_t *restrict line, int32_t *restrict out, size_t n)
{
    size_t lows = n - n / 2;
    for (size_t i = 0; i < lows; i++) out[i] = line[2 * i];
    for (size_t i = 0; i < n / 2; i++) out[lows + i] = line[2 * i + 1];
    NAME(lift)(out, n);
}

void NAME(backward)(const int32_t *restrict coefficients, int32_t *restrict out, size_t n)
{
    size_t lows = n - n / 2, highs = n / 2;
    const int32_t *low = coefficients, *high = coefficients + lows;
    if (n < 2) {
        if (n == 1) out[0] = low[0];
        return;
    }
    out[0] = less(low[0], quarter(high[0], high[0]));
    for (size_t i = 1; i < highs; i++) {
        out[2 * i] = less(low[i], quarter(high[i - 1], high[i]));
        out[2 * i - 1] = more(high[i - 1], half(out[2 * i - 2], out[2 * i]));
    }
    if (highs < lows) {
        out[n - 1] = less(low[lows - 1], quarter(high[highs - 1], high[highs - 1]));
        out[n - 2] = more(high[highs - 1], half(out[n - 3], out[n - 1]));
    } else {
        out[n - 1] = more(high[highs - 1], half(out[n - 2], out[n - 2]));
    }
}
