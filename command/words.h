/* What was typed after `terrain COMMAND`: words, and options with their values, in any order; after `--` everything is a word. */
#ifndef WORDS_H
#define WORDS_H

#include <stddef.h>
#include <stdint.h>

enum { MOST_WORDS = 3 };

typedef struct {
    const char *command, *usage;
    const char *word[MOST_WORDS];
    size_t count;
    const char *option[8]; /* the values, at the places of the command's option names */
    const char *const *names;
} Words;

/* A command: its name, what stands after it, how many words, the options that it takes (`--name VALUE`; `--name` alone where it begins with `!`). */
typedef struct {
    const char *name, *usage;
    size_t least, most;
    const char *const *options; /* NULL at the end */
    int (*run)(const Words *words);
} Command;

Words words_of(const Command *command, int count, char **given);

/* The value of an option, or NULL: it was not given. */
const char *option(const Words *words, const char *name);

/* The command line is no such command's: how it is, and the end. */
__attribute__((noreturn)) void usage_is(const Words *words);

/* 1 to 5, or the end. */
size_t levels_of(const char *word);

/* 1 to 64, or the end. */
size_t step_of(const char *word);

/* WIDTHxHEIGHT, or a side alone, or the end. */
void size_of(const char *text, uint64_t *width, uint64_t *height);

/* A decimal number up to that, or the end. */
uint64_t number_of(const char *what, const char *text, uint64_t most);

#endif
