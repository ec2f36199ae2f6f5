/* The fuzzer's bytes as numbers. When they are used up, every number is 0. */
#ifndef INPUT_H
#define INPUT_H

#include <stddef.h>
#include <stdint.h>

static const uint8_t *input, *input_end;

static inline unsigned byte(void)
{
    return input < input_end ? *input++ : 0;
}

static inline unsigned below(unsigned n)
{
    return byte() % n;
}

static inline uint64_t wide(int bytes)
{
    uint64_t n = 0;
    while (bytes--) n = n << 8 | byte();
    return n;
}

/* Any number: small ones, those about the limits, and a few as large as can be. */
static inline size_t number(void)
{
    static const uint64_t edges[] = { 0, 1, 2, 5, 6, 2047, 2048, 2049, 2050, 65534, 65535, 65536, (1ull << 32) - 1, 1ull << 32, 1ull << 63,
                                      UINT64_MAX - 1, UINT64_MAX };
    unsigned b = byte();
    if (b < 192) return b % 40;
    if (b < 240) return edges[b % 16];
    return b < 252 ? wide(2) : wide(8);
}

/* A width or height: a small one as a rule. */
static inline size_t size(void)
{
    return below(4) ? 1 + below(12) : number();
}

/* A coordinate at which a map starts: about 0 as a rule. */
static inline uint16_t origin(void)
{
    return (uint16_t)(below(4) ? below(4) : wide(2));
}

/* The number of a filter, now and then of none. */
static inline uint32_t filter_number(void)
{
    unsigned b = byte();
    return b < 240 ? b % 2 : b < 250 ? b % 8 : (uint32_t)wide(4);
}

/* Any 32-bit number, those about the ranges of heights and coefficients above all. */
static inline int32_t word(void)
{
    unsigned b = byte();
    static const int32_t reaches[] = { 65535, 262140, 1048560, 4194240, 16776960, 67107840, 393210, 2359260, 14155560, 84933360 };
    int64_t reach = reaches[b / 8 % 10];
    switch (b % 8) {
    case 0: return (int32_t)reach;
    case 1: return (int32_t)-reach;
    case 2: return (int32_t)(reach + 1);
    case 3: return (int32_t)(-reach - 1);
    case 4: return b & 128 ? INT32_MIN : INT32_MAX;
    case 5: return (int32_t)below(16) - 8;
    case 6: return (int32_t)wide(2);
    default: return (int32_t)(uint32_t)wide(4);
    }
}

/* n heights: from the input, flat, a checker of the largest steps, a slope or noise. */
static inline void fill(uint16_t *heights, size_t n)
{
    unsigned kind = below(6);
    uint32_t seed = (uint32_t)(kind ? wide(1) : 0);
    for (size_t i = 0; i < n; i++) {
        seed = seed * 1664525u + 1013904223u;
        switch (kind) {
        case 0: heights[i] = (uint16_t)wide(2); break;
        case 1: heights[i] = 0; break;
        case 2: heights[i] = 65535; break;
        case 3: heights[i] = i % 2 ? 65535 : 0; break;
        case 4: heights[i] = (uint16_t)(37 * i); break;
        default: heights[i] = (uint16_t)(seed >> 16); break;
        }
    }
}

#endif
