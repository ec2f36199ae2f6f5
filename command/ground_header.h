/* What the header of a ground file says (docs/FORMAT.md). */
#ifndef GROUND_HEADER_H
#define GROUND_HEADER_H

#include <terrain.h>

#include "input.h"

/* Width, height, levels, x, y, filter and step, by an input's first bytes, which are looked at and not read; or the end. */
void ground_header(Input *in, uint64_t header[7]);

#endif
