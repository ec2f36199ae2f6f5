/* Times of one way of doing something: a number for each round, of which the median and the best are told. */
#ifndef TIMING_H
#define TIMING_H

enum { ROUNDS = 15 };

/* Nanoseconds of processor time: other programs disturb it less than the time of day. */
double now(void);

/* Brings the times into order: the first is the best, the one in the middle the median. */
void in_order(double times[ROUNDS]);

static inline double best(const double times[ROUNDS]) { return times[0]; }
static inline double median(const double times[ROUNDS]) { return times[ROUNDS / 2]; }

#endif
