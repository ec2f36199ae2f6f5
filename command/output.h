/* What a command writes. A regular file is replaced when what takes its place is whole and synced, and not before: it is written to a temporary file beside
 * it, which is renamed. `-`, devices, FIFOs and names like /dev/stdout are written as they are, and never removed. */
#ifndef OUTPUT_H
#define OUTPUT_H

#include <stddef.h>
#include <stdio.h>

typedef struct {
    const char *name; /* what people call it */
    FILE *file;
    char *final, *temporary; /* the file that is replaced, and what is written; NULL: it is written as it is */
} Output;

/* What is to be written there; where it cannot be, the command ends. */
Output output_open(const char *path);

/* A file in a folder that is being made (folder.h), which is synced and renamed as a whole. */
Output output_within(const char *path);

void output_write(Output *out, const void *bytes, size_t count);

/* What was written so far goes out now. */
void output_flush(Output *out);

/* All of it is written: synced, and in its place. */
void output_keep(Output *out);

/* It is not wanted: what stood there before stays. */
void output_drop(Output *out);

/* Where a command says what it did: standard output, or standard error where that has the file. */
FILE *output_report(const Output *out);

/* Whether what is written there goes into a stream, which has no name by whose ending a form could be told: `-`, a device, a FIFO. */
int output_is_stream(const char *path);

#endif
