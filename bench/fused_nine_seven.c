/* Whole maps by the integer 9/7 in plain C, made as fused.c is: one sweep of the rows a level, columns and rows of a pair of rows lifted while they are
   in the cache, each coefficient written once to its place; back likewise. No question, no test, no zeroing. Compiled twice: KIND fused takes its
   sums in 32 bits, which is right for every map and its plane, KIND plain in 64, which is right for every plane. */
#include "lifting_nine_seven.h"
#include "maps.h"
#include <stdlib.h>

#define JOIN2(a, b) a##_##b
#define JOIN(a, b) JOIN2(a, b)
#define NAME(f) JOIN(KIND, f)

#define R restrict
typedef int32_t i32;
enum { LINES = 11, MARGIN = 8 }; /* a working row has room for numbers before and after it */
static i32 *line[LINES], *low[2]; /* working rows; LL of two levels in turn */
static size_t room, wide;

static int ready(size_t w, size_t h)
{
    size_t n = ((w + 1) / 2) * ((h + 1) / 2);
    if (n <= room && w <= wide) return 1;
    for (int i = 0; i < LINES; i++) {
        free(line[i] ? line[i] - MARGIN : NULL);
        if (!(line[i] = malloc((w + 4 * MARGIN) * sizeof(i32)))) return 0;
        line[i] += MARGIN;
    }
    for (int i = 0; i < 2; i++) low[i] = realloc(low[i], n * sizeof(i32));
    room = n, wide = w;
    return low[0] && low[1];
}

/* the even numbers of a line of n, lows of them, and their mirror at both ends */
static inline void margins(i32 *e, size_t n, size_t lows)
{
    i32 before = e[mirrored(-2, n) / 2], after = e[mirrored((ptrdiff_t)(2 * lows), n) / 2], next = e[mirrored((ptrdiff_t)(2 * lows + 2), n) / 2];
    e[-1] = before, e[lows] = after, e[lows + 1] = next;
}

static inline void lift(const i32 *R t, size_t n, i32 *R e, i32 *R l, i32 *R h)
{
    size_t nl = (n + 1) / 2, nh = n / 2;
    if (n < 2) { l[0] = t[0]; return; }
    for (size_t k = 0; k < nl; k++) e[k] = t[2 * k];
    margins(e, n, nl);
    for (size_t k = 0; k < nh; k++) h[k] = t[2 * k + 1] - foretold(e[k], e[k + 1], e[(ptrdiff_t)k - 1], e[k + 2]);
    l[0] = e[0] + quarter(h[0], h[0]);
    for (size_t k = 1; k < nh; k++) l[k] = e[k] + quarter(h[k - 1], h[k]);
    if (n % 2) l[nl - 1] = e[nl - 1] + quarter(h[nh - 1], h[nh - 1]);
}

static inline void unlift(const i32 *R l, const i32 *R h, size_t n, i32 *R e, i32 *R x)
{
    size_t nl = (n + 1) / 2, nh = n / 2;
    if (n < 2) { x[0] = l[0]; return; }
    e[0] = l[0] - quarter(h[0], h[0]);
    for (size_t k = 1; k < nh; k++) e[k] = l[k] - quarter(h[k - 1], h[k]);
    if (n % 2) e[nl - 1] = l[nl - 1] - quarter(h[nh - 1], h[nh - 1]);
    margins(e, n, nl);
    for (size_t k = 0; k < nh; k++) { x[2 * k] = e[k]; x[2 * k + 1] = h[k] + foretold(e[k], e[k + 1], e[(ptrdiff_t)k - 1], e[k + 2]); }
    if (n % 2) x[n - 1] = e[nl - 1];
}

/* one level of a w x h grid `in`: LL to `ll`, the other bands to their places in the plane q of rows of qs numbers */
#define LEVEL(NAME, T)                                                                                                                    \
    static void NAME(const T *R in, size_t w, size_t h, i32 *R ll, size_t ls, i32 *R q, size_t qs)                                         \
    {                                                                                                                                     \
        size_t wl = (w + 1) / 2, hl = (h + 1) / 2, hh = h / 2;                                                                             \
        i32 *before = line[0], *d = line[1], *R s = line[2], *e = line[3];                                                                 \
        for (size_t k = 0; k < hl; k++) {                                                                                                 \
            ptrdiff_t at = (ptrdiff_t)(2 * k);                                                                                            \
            const T *R a = in + 2 * k * w;                                                                                                \
            const i32 *R p = k ? before : d;                                                                                              \
            if (k < hh) {                                                                                                                 \
                const T *R b = a + w, *R c = in + mirrored(at + 2, h) * w, *R z = in + mirrored(at - 2, h) * w, *R y = in + mirrored(at + 4, h) * w; \
                if (k) for (size_t x = 0; x < w; x++) { i32 t = b[x] - foretold(a[x], c[x], z[x], y[x]); d[x] = t; s[x] = a[x] + quarter(p[x], t); } \
                else for (size_t x = 0; x < w; x++) { i32 t = b[x] - foretold(a[x], c[x], z[x], y[x]); d[x] = t; s[x] = a[x] + quarter(t, t); } \
            } else if (hh) for (size_t x = 0; x < w; x++) s[x] = a[x] + quarter(p[x], p[x]);                                               \
            else for (size_t x = 0; x < w; x++) s[x] = a[x];                                                                              \
            lift(s, w, e, ll + k * ls, q + k * qs + wl);                                                                                  \
            if (k < hh) lift(d, w, e, q + (hl + k) * qs, q + (hl + k) * qs + wl);                                                         \
            i32 *t = before; before = d; d = t;                                                                                           \
        }                                                                                                                                 \
    }
LEVEL(level16, uint16_t)
LEVEL(level32, i32)

/* set k gives row 2k, and row 2k - 3, whose last even row that is */
#define BACK(NAME, T)                                                                                                                     \
    static void NAME(const i32 *R ll, size_t ls, const i32 *R q, size_t qs, size_t w, size_t h, T *R out)                                  \
    {                                                                                                                                     \
        size_t wl = (w + 1) / 2, hl = (h + 1) / 2, hh = h / 2;                                                                             \
        i32 **even = line, **high = line + 4, *s = line[8], *e = line[9];                                                                  \
        for (size_t k = 0; k < hl + 2; k++) {                                                                                             \
            i32 *R en = even[k % 4];                                                                                                      \
            if (k < hl) {                                                                                                                 \
                unlift(ll + k * ls, q + k * qs + wl, w, e, s);                                                                            \
                if (k < hh) unlift(q + (hl + k) * qs, q + (hl + k) * qs + wl, w, e, high[k % 4]);                                         \
            }                                                                                                                             \
            const i32 *R sr = s, *R n = high[(k < hh ? k : k - 1) % 4], *R p = k ? high[(k - 1) % 4] : n;                                  \
            T *R row = out + 2 * k * w;                                                                                                   \
            if (k > 2 && k < hl) {                                                                                                        \
                const i32 *R a = even[(k - 2) % 4], *R b = even[(k - 1) % 4], *R c = even[(k - 3) % 4], *R d = high[(k - 2) % 4];          \
                T *R odd = row - 3 * w;                                                                                                   \
                for (size_t x = 0; x < w; x++) {                                                                                          \
                    i32 t = sr[x] - quarter(p[x], n[x]);                                                                                  \
                    en[x] = t; row[x] = (T)t; odd[x] = (T)(d[x] + foretold(a[x], b[x], c[x], t));                                         \
                }                                                                                                                         \
                continue;                                                                                                                 \
            }                                                                                                                             \
            if (k < hl && hh) for (size_t x = 0; x < w; x++) { i32 t = sr[x] - quarter(p[x], n[x]); en[x] = t; row[x] = (T)t; }             \
            if (!hh && !k) for (size_t x = 0; x < w; x++) row[x] = (T)sr[x];                                                              \
            if (k > 1 && k - 2 < hh) {                                                                                                    \
                ptrdiff_t at = (ptrdiff_t)(2 * k) - 4;                                                                                    \
                const i32 *R a = even[(k - 2) % 4], *R b = even[mirrored(at + 2, h) / 2 % 4], *R c = even[mirrored(at - 2, h) / 2 % 4];    \
                const i32 *R y = even[mirrored(at + 4, h) / 2 % 4], *R d = high[(k - 2) % 4];                                             \
                T *R odd = row - 3 * w;                                                                                                   \
                for (size_t x = 0; x < w; x++) odd[x] = (T)(d[x] + foretold(a[x], b[x], c[x], y[x]));                                     \
            }                                                                                                                             \
        }                                                                                                                                 \
    }
BACK(back16, uint16_t)
BACK(back32, i32)

void NAME(forward)(const uint16_t *heights, size_t W, size_t H, i32 *plane, i32 *work)
{
    size_t w = W, h = H;
    (void)work;
    if (!ready(w, h)) exit(1);
    level16(heights, w, h, LEVELS > 1 ? low[0] : plane, LEVELS > 1 ? (w + 1) / 2 : W, plane, W);
    for (size_t k = 1; k < LEVELS; k++) {
        int last = k + 1 == LEVELS;
        w = (w + 1) / 2, h = (h + 1) / 2;
        level32(low[(k - 1) % 2], w, h, last ? plane : low[k % 2], last ? W : (w + 1) / 2, plane, W);
    }
}

void NAME(backward)(const i32 *plane, size_t W, size_t H, uint16_t *heights, i32 *work)
{
    size_t w[LEVELS + 1] = { W }, h[LEVELS + 1] = { H }, stride = W;
    const i32 *ll = plane;
    (void)work;
    if (!ready(W, H)) exit(1);
    for (size_t k = 1; k <= LEVELS; k++) w[k] = (w[k - 1] + 1) / 2, h[k] = (h[k - 1] + 1) / 2;
    for (size_t k = LEVELS - 1; k >= 1; k--) {
        back32(ll, stride, plane, W, w[k], h[k], low[k % 2]);
        ll = low[k % 2], stride = w[k];
    }
    back16(ll, stride, plane, W, W, H, heights);
}
