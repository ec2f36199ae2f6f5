/* A line on standard error for work that takes longer than a second: how much is done, and how long the rest will take if it goes on like that. It appears
 * where standard error is a terminal or TERRAIN_PROGRESS is `always`, and is wiped out at the end. */
#ifndef PROGRESS_H
#define PROGRESS_H

#include <stdint.h>

/* Work of that name begins. */
void progress_begin(const char *what);

/* So much of it is done. A command that a signal asked to end does so here. */
void progress(uint64_t done, uint64_t total);

void progress_end(void);

#endif
