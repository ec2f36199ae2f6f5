/* A file, a pipe or standard input (`-`), read to its end. */
#ifndef INPUT_H
#define INPUT_H

#include <stddef.h>
#include <stdint.h>

typedef struct {
    const char *name; /* what people call it */
    int fd;
    uint64_t size, at; /* of a regular file; 0: not known */
    uint8_t ahead[24]; /* looked at, not read yet */
    size_t looked;
} Input;

/* An input that can be opened and is no directory, or the end. */
Input input_open(const char *path);

/* The next bytes, one at least; 0: the end. What cannot be read ends the command. */
size_t input_read(Input *in, uint8_t *to, size_t room);

/* Its first bytes, as far as there are so many; how many. */
size_t input_look(Input *in, uint8_t *to, size_t count);

void input_close(Input *in);

/* Whether a path names a file that was opened as an input, under whatever name. */
int was_input(const char *path);

#endif
