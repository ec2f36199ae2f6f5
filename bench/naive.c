/* Whole maps in naive C, as a textbook has it: one line at a time is lifted in place and then parted through a second line, columns by their stride */
#include "lifting.h"
#include "maps.h"
#include <string.h>

static void naive_lift(int32_t *x, size_t n, size_t stride)
{
    static int32_t parted[70000];
    size_t lows = n - n / 2, highs = n / 2;
    if (n < 2) return;
    for (size_t i = 0; i < highs; i++)
        x[(2 * i + 1) * stride] -= half(x[2 * i * stride], x[(2 * i + 2 < n ? 2 * i + 2 : 2 * i) * stride]);
    for (size_t i = 0; i < lows; i++)
        x[2 * i * stride] += quarter(x[(i ? 2 * i - 1 : 1) * stride], x[(2 * i + 1 < n ? 2 * i + 1 : 2 * i - 1) * stride]);
    for (size_t i = 0; i < lows; i++) parted[i] = x[2 * i * stride];
    for (size_t i = 0; i < highs; i++) parted[lows + i] = x[(2 * i + 1) * stride];
    for (size_t i = 0; i < n; i++) x[i * stride] = parted[i];
}

static void naive_unlift(int32_t *x, size_t n, size_t stride)
{
    static int32_t parted[70000];
    size_t lows = n - n / 2, highs = n / 2;
    if (n < 2) return;
    for (size_t i = 0; i < n; i++) parted[i] = x[i * stride];
    for (size_t i = 0; i < lows; i++) x[2 * i * stride] = parted[i];
    for (size_t i = 0; i < highs; i++) x[(2 * i + 1) * stride] = parted[lows + i];
    for (size_t i = 0; i < lows; i++)
        x[2 * i * stride] -= quarter(x[(i ? 2 * i - 1 : 1) * stride], x[(2 * i + 1 < n ? 2 * i + 1 : 2 * i - 1) * stride]);
    for (size_t i = 0; i < highs; i++)
        x[(2 * i + 1) * stride] += half(x[2 * i * stride], x[(2 * i + 2 < n ? 2 * i + 2 : 2 * i) * stride]);
}

void naive_forward(const uint16_t *heights, size_t W, size_t H, int32_t *plane, int32_t *work)
{
    (void)work;
    for (size_t i = 0; i < W * H; i++) plane[i] = heights[i];
    size_t w = W, h = H;
    for (int k = 0; k < LEVELS; k++) {
        for (size_t c = 0; c < w; c++) naive_lift(plane + c, h, W);
        for (size_t r = 0; r < h; r++) naive_lift(plane + r * W, w, 1);
        w -= w / 2;
        h -= h / 2;
    }
}

void naive_backward(const int32_t *plane, size_t W, size_t H, uint16_t *heights, int32_t *work)
{
    memcpy(work, plane, W * H * sizeof *work);
    for (int k = LEVELS; k-- > 0;) {
        size_t w = W, h = H;
        for (int j = 0; j < k; j++) w -= w / 2, h -= h / 2;
        for (size_t r = 0; r < h; r++) naive_unlift(work + r * W, w, 1);
        for (size_t c = 0; c < w; c++) naive_unlift(work + c, h, W);
    }
    for (size_t i = 0; i < W * H; i++) heights[i] = (uint16_t)work[i];
}
