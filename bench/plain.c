/* Whole maps in plain C, row-wise: columns are lifted a row at a time, rows through a line that is parted; bands go to their places */
#include "lifting.h"
#include "maps.h"
#include <string.h>

static int32_t line[4096];

static void lift_row(int32_t *row, size_t n)
{
    size_t lows = n - n / 2, highs = n / 2;
    int32_t *restrict low = line, *restrict high = line + lows;
    for (size_t i = 0; i < lows; i++) low[i] = row[2 * i];
    for (size_t i = 0; i < highs; i++) high[i] = row[2 * i + 1];
    if (n > 1) {
        for (size_t i = 0; i + 1 < lows; i++) high[i] -= half(low[i], low[i + 1]);
        if (highs == lows) high[highs - 1] -= low[lows - 1];
        low[0] += quarter(high[0], high[0]);
        for (size_t i = 1; i < highs; i++) low[i] += quarter(high[i - 1], high[i]);
        if (highs < lows) low[lows - 1] += quarter(high[highs - 1], high[highs - 1]);
    }
    memcpy(row, line, n * sizeof *row);
}

static void unlift_row(int32_t *row, size_t n)
{
    size_t lows = n - n / 2, highs = n / 2;
    int32_t *restrict low = line, *restrict high = line + lows;
    memcpy(line, row, n * sizeof *row);
    if (n > 1) {
        low[0] -= quarter(high[0], high[0]);
        for (size_t i = 1; i < highs; i++) low[i] -= quarter(high[i - 1], high[i]);
        if (highs < lows) low[lows - 1] -= quarter(high[highs - 1], high[highs - 1]);
        for (size_t i = 0; i + 1 < lows; i++) high[i] += half(low[i], low[i + 1]);
        if (highs == lows) high[highs - 1] += low[lows - 1];
    }
    for (size_t i = 0; i < lows; i++) row[2 * i] = low[i];
    for (size_t i = 0; i < highs; i++) row[2 * i + 1] = high[i];
}

static void predict(int32_t *restrict t, const int32_t *l, const int32_t *r, size_t n, int sign)
{
    for (size_t i = 0; i < n; i++) t[i] += sign * half(l[i], r[i]);
}

static void update(int32_t *restrict t, const int32_t *l, const int32_t *r, size_t n, int sign)
{
    for (size_t i = 0; i < n; i++) t[i] += sign * quarter(l[i], r[i]);
}

static size_t after(size_t h, size_t r) { return r + 1 < h ? r + 1 : r - 1; }
static size_t before(size_t r) { return r ? r - 1 : 1; }

/* work row r to its place in the plane, or back */
static size_t place(size_t h, size_t r) { return r % 2 ? h - h / 2 + r / 2 : r / 2; }

void plain_forward(const uint16_t *heights, size_t W, size_t H, int32_t *plane, int32_t *work)
{
    for (size_t i = 0; i < W * H; i++) work[i] = heights[i];
    size_t w = W, h = H;
    for (int k = 0; k < LEVELS; k++) {
        if (h > 1) {
            for (size_t r = 1; r < h; r += 2) predict(work + r * W, work + (r - 1) * W, work + after(h, r) * W, w, -1);
            for (size_t r = 0; r < h; r += 2) update(work + r * W, work + before(r) * W, work + after(h, r) * W, w, 1);
        }
        for (size_t r = 0; r < h; r++) {
            lift_row(work + r * W, w);
            memcpy(plane + place(h, r) * W, work + r * W, w * sizeof *work);
        }
        w -= w / 2;
        h -= h / 2;
        for (size_t r = 0; r < h; r++) memcpy(work + r * W, plane + r * W, w * sizeof *work);
    }
}

void plain_backward(const int32_t *plane, size_t W, size_t H, uint16_t *heights, int32_t *work)
{
    size_t ws[LEVELS + 1], hs[LEVELS + 1];
    ws[0] = W, hs[0] = H;
    for (int k = 0; k < LEVELS; k++) ws[k + 1] = ws[k] - ws[k] / 2, hs[k + 1] = hs[k] - hs[k] / 2;
    for (size_t r = 0; r < hs[LEVELS]; r++) memcpy(work + r * W, plane + r * W, ws[LEVELS] * sizeof *work);
    for (int k = LEVELS; k-- > 0;) {
        size_t w = ws[k], h = hs[k], low = ws[k + 1], rows = hs[k + 1];
        for (size_t r = rows; r-- > 1;) memcpy(work + 2 * r * W, work + r * W, low * sizeof *work);
        for (size_t r = 0; r < h; r++) {
            size_t from = r % 2 ? 0 : low;
            memcpy(work + r * W + from, plane + place(h, r) * W + from, (w - from) * sizeof *work);
            unlift_row(work + r * W, w);
        }
        if (h > 1) {
            for (size_t r = 0; r < h; r += 2) update(work + r * W, work + before(r) * W, work + after(h, r) * W, w, -1);
            for (size_t r = 1; r < h; r += 2) predict(work + r * W, work + (r - 1) * W, work + after(h, r) * W, w, 1);
        }
    }
    for (size_t i = 0; i < W * H; i++) heights[i] = (uint16_t)work[i];
}
