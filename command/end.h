/* How a command ends: by a status, with a sentence on standard error where something is wrong. `terrain --help` lists the statuses for people. */
#ifndef END_H
#define END_H

enum {
    STATUS_DONE = 0,
    STATUS_DIFFERENT = 1,  /* check: a map did not come back as it was; compare: the maps differ */
    STATUS_USAGE = 2,      /* the command line is no such command's */
    STATUS_REFUSED = 3,    /* the input is no map that the command takes */
    STATUS_UNREADABLE = 4, /* the input cannot be read */
    STATUS_UNWRITTEN = 5,  /* the output cannot be written */
    STATUS_UNABLE = 6      /* the command itself cannot run: not built, or not enough memory */
};

/* What has to be done where a command ends, early or not, such as removing what is half done; the last one said is done first. */
void at_end(void (*cleans)(void));

/* Says the sentence and ends. */
__attribute__((noreturn, format(printf, 2, 3))) void fail(int status, const char *sentence, ...);

/* Whoever read what is written went away: that is no failure to report. Ends as by SIGPIPE. */
__attribute__((noreturn)) void reader_gone(void);

/* Ends where a signal (interrupt, hang-up, termination) asked for it; every loop that reads, writes or tells its progress comes by here. */
void end_if_asked(void);

/* Before anything else: signals are noted, and a closed standard stream is one that fails, so that no file of ours gets its number. */
void begin(void);

/* The command is done, once its standard output is written too. */
__attribute__((noreturn)) void finish(int status);

/* Memory, or the end. */
void *lent(unsigned long long count, unsigned long long size, const char *name);

#endif
