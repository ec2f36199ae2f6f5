/* The commands, each in a file of its name: they answer a status. */
#ifndef COMMANDS_H
#define COMMANDS_H

#include "words.h"

int check(const Words *words);
int bands(const Words *words);
int list(const Words *words);    /* programs.c */
int rewrite(const Words *words); /* programs.c */
int sum(const Words *words);
int compare(const Words *words);
int shade(const Words *words);
int near(const Words *words);
int far(const Words *words);
int rounding(const Words *words); /* round.c: C has a function of that name */
int convert(const Words *words);
int tile(const Words *words);
int pack(const Words *words);   /* ground.c */
int unpack(const Words *words); /* ground.c */
int info(const Words *words);   /* ground.c */

/* help.c: what the program does, what one command does; how a command is called. */
void help(void);
int help_of(const char *command);

#endif
