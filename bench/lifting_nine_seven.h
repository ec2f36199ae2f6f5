/* The two floors of the integer 9/7 lifting, as the C peers take them, in sums of type SUM. 32 bits are enough for every map, and for the plane of
   every map on the way back: at four levels its sums stay within 2^30. A plane of no map may need 64. */
#ifndef LIFTING_NINE_SEVEN_H
#define LIFTING_NINE_SEVEN_H
#include <stddef.h>
#include <stdint.h>

#ifndef SUM
#define SUM int32_t
#endif

/* what a high sample goes by: the even ones beside it and those beyond */
static inline int32_t foretold(int32_t l, int32_t r, int32_t ll, int32_t rr)
{
    return (int32_t)((9 * ((SUM)l + r) - ((SUM)ll + rr) + 8) >> 4);
}

/* -floor((2 - a - b) / 4) */
static inline int32_t quarter(int32_t a, int32_t b) { return (int32_t)(((SUM)a + b + 1) >> 2); }

/* the place that place p is mirrored to, as often as a short line needs, in a line of n */
static inline size_t mirrored(ptrdiff_t p, size_t n)
{
    ptrdiff_t last = (ptrdiff_t)n - 1;
    while (last > 0 && (p < 0 || p > last)) p = p < 0 ? -p : 2 * last - p;
    return last > 0 ? (size_t)p : 0;
}

#endif
