/* A plain listing in C, the peer of the program `list` in the benchmark: it reads all of its input, transforms the map row by row as
   maps.c does, and writes the band rows in the order of the writer through one large buffer. It trusts its input. */
#include <stdint.h>
#include <stdio.h>
#include <stdlib.h>
#include <string.h>

static char out[1 << 16];
static size_t filled;

static void flush(void)
{
    fwrite(out, 1, filled, stdout);
    filled = 0;
}

static void put_number(int32_t v)
{
    char digits[12];
    size_t n = 0;
    uint32_t m = v < 0 ? 0u - (uint32_t)v : (uint32_t)v;
    do digits[n++] = (char)('0' + m % 10);
    while (m /= 10);
    if (v < 0) out[filled++] = '-';
    while (n) out[filled++] = digits[--n];
}

static int32_t *plane, *work, line[4096];
static size_t W, H, levels, ws[6], hs[6];

static void put_row(size_t k, const char *band, size_t row, const int32_t *values, size_t n)
{
    put_number((int32_t)k);
    out[filled++] = ' ';
    out[filled++] = band[0];
    out[filled++] = band[1];
    out[filled++] = ' ';
    put_number((int32_t)row);
    for (size_t i = 0; i < n; i++) {
        if (filled + 16 > sizeof out) flush();
        out[filled++] = ' ';
        put_number(values[i]);
    }
    out[filled++] = '\n';
    if (filled + 64 > sizeof out) flush();
}

/* a complete row r of the low-low part after k levels; the set i of level k that is due, and on to the next level */
static void due(size_t k, size_t i);

static void arrive(size_t k, size_t r)
{
    if (k < levels && r >= 2 && r % 2 == 0) due(k + 1, r / 2 - 1);
}

static void due(size_t k, size_t i)
{
    size_t low = ws[k], high = ws[k - 1] - ws[k], rows = hs[k];
    int has_high_row = i < hs[k - 1] - rows;
    if (k == levels) put_row(k, "LL", i, plane + i * W, low);
    if (high) put_row(k, "HL", i, plane + i * W + low, high);
    if (has_high_row) put_row(k, "LH", i, plane + (rows + i) * W, low);
    if (has_high_row && high) put_row(k, "HH", i, plane + (rows + i) * W + low, high);
    arrive(k, i);
}

static inline int32_t half(int32_t a, int32_t b) { return (a + b) >> 1; }
static inline int32_t quarter(int32_t a, int32_t b) { return (a + b + 2) >> 2; }

static void lift_row(int32_t *row, size_t n)
{
    size_t lows = n - n / 2, highs = n / 2;
    int32_t *restrict low = line, *restrict high = line + lows;
    for (size_t i = 0; i < lows; i++) low[i] = row[2 * i];
    for (size_t i = 0; i < highs; i++) high[i] = row[2 * i + 1];
    if (n > 1) {
        for (size_t i = 0; i + 1 < lows; i++) high[i] -= half(low[i], low[i + 1]);
        if (highs == lows) high[highs - 1] -= low[lows - 1];
        low[0] += quarter(high[0], high[0]);
        for (size_t i = 1; i < highs; i++) low[i] += quarter(high[i - 1], high[i]);
        if (highs < lows) low[lows - 1] += quarter(high[highs - 1], high[highs - 1]);
    }
    memcpy(row, line, n * sizeof *row);
}

static void predict(int32_t *restrict t, const int32_t *l, const int32_t *r, size_t n)
{
    for (size_t i = 0; i < n; i++) t[i] -= half(l[i], r[i]);
}

static void update(int32_t *restrict t, const int32_t *l, const int32_t *r, size_t n)
{
    for (size_t i = 0; i < n; i++) t[i] += quarter(l[i], r[i]);
}

static size_t after(size_t h, size_t r) { return r + 1 < h ? r + 1 : r - 1; }
static size_t before(size_t r) { return r ? r - 1 : 1; }
static size_t place(size_t h, size_t r) { return r % 2 ? h - h / 2 + r / 2 : r / 2; }

static void transform(void)
{
    for (size_t k = 0; k < levels; k++) {
        size_t w = ws[k], h = hs[k];
        if (h > 1) {
            for (size_t r = 1; r < h; r += 2) predict(work + r * W, work + (r - 1) * W, work + after(h, r) * W, w);
            for (size_t r = 0; r < h; r += 2) update(work + r * W, work + before(r) * W, work + after(h, r) * W, w);
        }
        for (size_t r = 0; r < h; r++) {
            lift_row(work + r * W, w);
            memcpy(plane + place(h, r) * W, work + r * W, w * sizeof *work);
        }
        for (size_t r = 0; r < hs[k + 1]; r++) memcpy(work + r * W, plane + r * W, ws[k + 1] * sizeof *work);
    }
}

int main(void)
{
    size_t most;
    if (scanf("%zu P5 %zu %zu %zu", &levels, &W, &H, &most) != 4 || levels > 5 || W > 4096) return 1;
    getchar();
    size_t n = W * H, size = most < 256 ? 1 : 2;
    unsigned char *bytes = malloc(size * n);
    plane = malloc(n * sizeof *plane);
    work = malloc(n * sizeof *work);
    if (!bytes || !plane || !work || fread(bytes, size, n, stdin) != n) return 1;
    if (size == 1)
        for (size_t i = 0; i < n; i++) work[i] = bytes[i];
    else
        for (size_t i = 0; i < n; i++) work[i] = 256 * bytes[2 * i] + bytes[2 * i + 1];
    ws[0] = W, hs[0] = H;
    for (size_t k = 0; k < levels; k++) ws[k + 1] = ws[k] - ws[k] / 2, hs[k + 1] = hs[k] - hs[k] / 2;
    transform();
    printf("%zu %zu %zu\n", W, H, levels);
    for (size_t r = 0; r < H; r++) arrive(0, r);
    for (size_t k = 1; k <= levels; k++) due(k, hs[k] - 1);
    flush();
    return 0;
}
