/* A proved program run between an input and an output: every byte goes through here, so that it can be looked at on its way. */
#ifndef CHILD_H
#define CHILD_H

#include "input.h"

/* What is done with the bytes on their way. */
typedef struct {
    void *to;
    void (*in)(void *to, const uint8_t *bytes, size_t count);  /* of the input */
    void (*out)(void *to, const uint8_t *bytes, size_t count); /* what the program wrote */
} Watch;

/* Runs the program `name`, which stands where this one's programs do, on `first` and then the input. What keeps it from running ends the command. */
void child_run(const char *name, const char *first, Input *in, const Watch *watch);

#endif
