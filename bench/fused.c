/* Whole maps in plain C, one sweep of the rows a level: heights read as they are, columns and rows of a pair of rows lifted while they are in the
   cache, each coefficient written once to its place in the plane; back likewise. It asks no question (no 7, no 14), zeroes nothing and trusts its
   caller: what the machine gives, and so the table's reference. It keeps its working rows and two low-low parts from call to call. */
#include "maps.h"
#include <stdlib.h>

#define R restrict
typedef int32_t i32;
static i32 *line[6], *low[2]; /* working rows; LL of two levels in turn */
static size_t room, wide;

static int ready(size_t w, size_t h)
{
    size_t n = ((w + 1) / 2) * ((h + 1) / 2);
    if (n <= room && w <= wide) return 1;
    for (int i = 0; i < 6; i++) line[i] = realloc(line[i], (w + 16) * sizeof(i32));
    for (int i = 0; i < 2; i++) low[i] = realloc(low[i], n * sizeof(i32));
    room = n, wide = w;
    return line[5] && low[1];
}

static inline void lift(i32 *R t, size_t n, i32 *R l, i32 *R h) /* t has room for one number more */
{
    size_t nl = (n + 1) / 2, nh = n / 2;
    if (n < 2) { l[0] = t[0]; return; }
    if (n % 2 == 0) t[n] = t[n - 2];
    for (size_t k = 0; k < nh; k++) h[k] = t[2 * k + 1] - ((t[2 * k] + t[2 * k + 2]) >> 1);
    l[0] = t[0] + ((h[0] + h[0] + 2) >> 2);
    for (size_t k = 1; k < nh; k++) l[k] = t[2 * k] + ((h[k - 1] + h[k] + 2) >> 2);
    if (n % 2) l[nl - 1] = t[n - 1] + ((h[nh - 1] + h[nh - 1] + 2) >> 2);
}

static inline void unlift(const i32 *R l, const i32 *R h, size_t n, i32 *R e, i32 *R x)
{
    size_t nl = (n + 1) / 2, nh = n / 2;
    if (n < 2) { x[0] = l[0]; return; }
    e[0] = l[0] - ((h[0] + h[0] + 2) >> 2);
    for (size_t k = 1; k < nh; k++) e[k] = l[k] - ((h[k - 1] + h[k] + 2) >> 2);
    if (n % 2) e[nl - 1] = l[nl - 1] - ((h[nh - 1] + h[nh - 1] + 2) >> 2); else e[nl] = e[nl - 1];
    for (size_t k = 0; k < nh; k++) { x[2 * k] = e[k]; x[2 * k + 1] = h[k] + ((e[k] + e[k + 1]) >> 1); }
    if (n % 2) x[n - 1] = e[nl - 1];
}

/* one level of a w x h grid `in`: LL to `ll`, the other bands to their places in the plane q of rows of qs numbers */
#define LEVEL(NAME, T)                                                                                                                    \
    static void NAME(const T *R in, size_t w, size_t h, i32 *R ll, size_t ls, i32 *R q, size_t qs)                                         \
    {                                                                                                                                     \
        size_t wl = (w + 1) / 2, hl = (h + 1) / 2, hh = h / 2;                                                                             \
        i32 *before = line[0], *d = line[1], *R s = line[2];                                                                               \
        for (size_t k = 0; k < hl; k++) {                                                                                                 \
            const T *R a = in + 2 * k * w;                                                                                                \
            if (k < hh) {                                                                                                                 \
                const T *R b = a + w, *R c = 2 * k + 2 < h ? b + w : a;                                                                    \
                const i32 *R p = k ? before : d;                                                                                          \
                if (k) for (size_t x = 0; x < w; x++) { i32 t = b[x] - ((a[x] + c[x]) >> 1); d[x] = t; s[x] = a[x] + ((p[x] + t + 2) >> 2); } \
                else for (size_t x = 0; x < w; x++) { i32 t = b[x] - ((a[x] + c[x]) >> 1); d[x] = t; s[x] = a[x] + ((t + t + 2) >> 2); }     \
                lift(s, w, ll + k * ls, q + k * qs + wl);                                                                                 \
                lift(d, w, q + (hl + k) * qs, q + (hl + k) * qs + wl);                                                                    \
                i32 *t = before; before = d; d = t;                                                                                       \
            } else {                                                                                                                      \
                const i32 *R p = before;                                                                                                  \
                if (hh) for (size_t x = 0; x < w; x++) s[x] = a[x] + ((p[x] + p[x] + 2) >> 2);                                             \
                else for (size_t x = 0; x < w; x++) s[x] = a[x];                                                                          \
                lift(s, w, ll + k * ls, q + k * qs + wl);                                                                                 \
            }                                                                                                                             \
        }                                                                                                                                 \
    }
LEVEL(level16, uint16_t)
LEVEL(level32, i32)

#define BACK(NAME, T)                                                                                                                     \
    static void NAME(const i32 *R ll, size_t ls, const i32 *R q, size_t qs, size_t w, size_t h, T *R out)                                  \
    {                                                                                                                                     \
        size_t wl = (w + 1) / 2, hl = (h + 1) / 2, hh = h / 2;                                                                             \
        i32 *before = line[0], *d = line[1], *even = line[2], *here = line[3], *s = line[4], *e = line[5];                                 \
        for (size_t k = 0; k < hl; k++) {                                                                                                 \
            unlift(ll + k * ls, q + k * qs + wl, w, e, s);                                                                                \
            if (k < hh) unlift(q + (hl + k) * qs, q + (hl + k) * qs + wl, w, e, d);                                                       \
            T *R row = out + 2 * k * w, *R above = k ? row - w : row;                                                                     \
            const i32 *R p = k ? before : d, *R n = k < hh ? d : before, *R ev = even; const i32 *R sr = s; i32 *R en = here;              \
            if (!k) for (size_t x = 0; x < w; x++) { i32 t = sr[x] - ((hh ? n[x] + n[x] + 2 : 0) >> 2); en[x] = t; row[x] = (T)t; }         \
            else for (size_t x = 0; x < w; x++) {                                                                                         \
                i32 t = sr[x] - ((p[x] + n[x] + 2) >> 2);                                                                                 \
                en[x] = t; row[x] = (T)t; above[x] = (T)(p[x] + ((ev[x] + t) >> 1));                                                      \
            }                                                                                                                             \
            i32 *t = before; before = d; d = t; t = even; even = here; here = t;                                                          \
        }                                                                                                                                 \
        if (h % 2 == 0) {                                                                                                                 \
            T *R row = out + (h - 1) * w;                                                                                                 \
            const i32 *R p = before, *R ev = even;                                                                                        \
            for (size_t x = 0; x < w; x++) row[x] = (T)(p[x] + ev[x]);                                                                    \
        }                                                                                                                                 \
    }
BACK(back16, uint16_t)
BACK(back32, i32)

void fused_forward(const uint16_t *heights, size_t W, size_t H, i32 *plane, i32 *work)
{
    size_t w = W, h = H;
    (void)work;
    if (!ready(w, h)) exit(1);
    level16(heights, w, h, LEVELS > 1 ? low[0] : plane, LEVELS > 1 ? (w + 1) / 2 : W, plane, W);
    for (size_t k = 1; k < LEVELS; k++) {
        int last = k + 1 == LEVELS;
        w = (w + 1) / 2, h = (h + 1) / 2;
        level32(low[(k - 1) % 2], w, h, last ? plane : low[k % 2], last ? W : (w + 1) / 2, plane, W);
    }
}

void fused_backward(const i32 *plane, size_t W, size_t H, uint16_t *heights, i32 *work)
{
    size_t w[LEVELS + 1] = { W }, h[LEVELS + 1] = { H }, stride = W;
    const i32 *ll = plane;
    (void)work;
    if (!ready(W, H)) exit(1);
    for (size_t k = 1; k <= LEVELS; k++) w[k] = (w[k - 1] + 1) / 2, h[k] = (h[k - 1] + 1) / 2;
    for (size_t k = LEVELS - 1; k >= 1; k--) {
        back32(ll, stride, plane, W, w[k], h[k], low[k % 2]);
        ll = low[k % 2], stride = w[k];
    }
    back16(ll, stride, plane, W, W, H, heights);
}
