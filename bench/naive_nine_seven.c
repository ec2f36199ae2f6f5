/* Whole maps by the integer 9/7 in naive C, as naive.c has the 5/3: one line at a time is lifted in place and then parted through a second line. */
#include "lifting_nine_seven.h"
#include "maps.h"
#include <string.h>

static int32_t parted[70000];

/* one step over the places of one parity: the high ones by the even ones, the low ones by the high ones */
static void high_step(int32_t *x, size_t n, size_t stride, int sign)
{
    for (size_t p = 1; p < n; p += 2) {
        ptrdiff_t at = (ptrdiff_t)p;
        int32_t beside = x[mirrored(at + 1, n) * stride], before = x[mirrored(at - 3, n) * stride], after = x[mirrored(at + 3, n) * stride];
        x[p * stride] += sign * foretold(x[(p - 1) * stride], beside, before, after);
    }
}

static void low_step(int32_t *x, size_t n, size_t stride, int sign)
{
    for (size_t p = 0; p < n; p += 2)
        x[p * stride] += sign * quarter(x[mirrored((ptrdiff_t)p - 1, n) * stride], x[mirrored((ptrdiff_t)p + 1, n) * stride]);
}

static void naive_lift(int32_t *x, size_t n, size_t stride)
{
    size_t lows = n - n / 2;
    if (n < 2) return;
    high_step(x, n, stride, -1);
    low_step(x, n, stride, 1);
    for (size_t i = 0; i < n; i++) parted[i % 2 ? lows + i / 2 : i / 2] = x[i * stride];
    for (size_t i = 0; i < n; i++) x[i * stride] = parted[i];
}

static void naive_unlift(int32_t *x, size_t n, size_t stride)
{
    size_t lows = n - n / 2;
    if (n < 2) return;
    for (size_t i = 0; i < n; i++) parted[i] = x[i * stride];
    for (size_t i = 0; i < n; i++) x[i * stride] = parted[i % 2 ? lows + i / 2 : i / 2];
    low_step(x, n, stride, -1);
    high_step(x, n, stride, 1);
}

void naive_forward(const uint16_t *heights, size_t W, size_t H, int32_t *plane, int32_t *work)
{
    (void)work;
    for (size_t i = 0; i < W * H; i++) plane[i] = heights[i];
    size_t w = W, h = H;
    for (int k = 0; k < LEVELS; k++) {
        for (size_t c = 0; c < w; c++) naive_lift(plane + c, h, W);
        for (size_t r = 0; r < h; r++) naive_lift(plane + r * W, w, 1);
        w -= w / 2;
        h -= h / 2;
    }
}

void naive_backward(const int32_t *plane, size_t W, size_t H, uint16_t *heights, int32_t *work)
{
    memcpy(work, plane, W * H * sizeof *work);
    for (int k = LEVELS; k-- > 0;) {
        size_t w = W, h = H;
        for (int j = 0; j < k; j++) w -= w / 2, h -= h / 2;
        for (size_t r = 0; r < h; r++) naive_unlift(work + r * W, w, 1);
        for (size_t c = 0; c < w; c++) naive_unlift(work + c, h, W);
    }
    for (size_t i = 0; i < W * H; i++) heights[i] = (uint16_t)work[i];
}
