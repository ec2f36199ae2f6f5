/* The two floors of the reversible 5/3 lifting, as the C peers take them: sums of 32 bits, right for every map. */
#ifndef LIFTING_H
#define LIFTING_H
#include <stdint.h>

static inline int32_t half(int32_t a, int32_t b) { return (a + b) >> 1; }
static inline int32_t quarter(int32_t a, int32_t b) { return (a + b + 2) >> 2; }

#endif
