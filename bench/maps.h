/* Whole maps at LEVELS levels, in the ways that the table compares: the proved calls, and three in C that do what they do, u16 in or out through
   one plane of 32-bit numbers, without the questions, the tests and the zeroing. Every area has width times height numbers. */
#ifndef MAPS_H
#define MAPS_H
#include "filter.h"
#include <stddef.h>
#include <stdint.h>

typedef void Forward(const uint16_t *heights, size_t W, size_t H, int32_t *plane, int32_t *work);
typedef void Backward(const int32_t *plane, size_t W, size_t H, uint16_t *heights, int32_t *work);

extern Forward proved_forward, fused_forward, plain_forward, naive_forward;
extern Backward proved_backward, fused_backward, plain_backward, naive_backward;

#endif
