/* What the parts of the check share: random numbers, the hash that every answer and every byte that a call may have written goes into, and the areas lent.
   No C library and no floats of its own, so that it compiles for a machine without either. */
#ifndef CHECK_COMMON_H
#define CHECK_COMMON_H
#include "terrain.h"

enum { ROOM = 90000, ANSWERS = 24 };
extern uint16_t heights[ROOM], heights_back[ROOM];
extern int32_t plane[ROOM], work[ROOM], out[ROOM], store[TERRAIN_MAX_STORE_LENGTH + 64];
extern int wide; /* numbers beyond 32 bits too, which a size_t of 32 bits has not */

uint64_t any_number(void);
uint32_t below(uint32_t n);
/* a word of some kind: any at all, a height, the least ones, near zero */
int32_t any_word(void);
/* heights of one kind: all the same, noise, the two ends, a slope, small noise */
void fill(uint16_t *area, size_t n);
/* a shape that passes most of the time, and one in four with a number of some other kind */
terrain_shape any_shape(void);
/* one coefficient of the plane changed, by little or by much */
void spoil(uint32_t among);
/* a number of the state or of the line store overwritten */
void scribble(uint64_t *state, size_t state_len, uint32_t store_len);

void add(uint64_t value);
void add16(const uint16_t *area, size_t n);
void add32(const int32_t *area, size_t n);
void add64(const uint64_t *area, size_t n);
/* an answer: counted by its number, and added */
void say(uint32_t number);
/* something that must come out one way: whether it did */
void count(uint64_t equal);

/* the parts, each one round of it */
void lines(void);
void profiles(void);
void pictures(void);
void maps(void);
void streams(void);
void scribbled_streams(void);
void limits(void);
void turn_givers(void);
void nearest_changes(void);
void strokes(void);
void roundings(void);
void files(void);
void scribbled_files(void);
void runs(void);
#endif
