/* The progress line. */
#include "progress.h"

#include <stdio.h>
#include <stdlib.h>
#include <string.h>
#include <time.h>
#include <unistd.h>

#include "end.h"

enum { NEVER, TERMINAL, ALWAYS };

static const char *work;
static double began, said;
static int wanted, shown;

static double seconds(void)
{
    struct timespec now;
    clock_gettime(CLOCK_MONOTONIC, &now);
    return (double)now.tv_sec + (double)now.tv_nsec / 1e9;
}

void progress_begin(const char *what)
{
    const char *how = getenv("TERRAIN_PROGRESS");
    progress_end();
    work = what;
    began = seconds();
    wanted = how && strcmp(how, "always") == 0 ? ALWAYS : how && strcmp(how, "never") == 0 ? NEVER : isatty(STDERR_FILENO) ? TERMINAL : NEVER;
    at_end(progress_end);
}

/* At most one line a second; with `always` also the first one, at once. */
void progress(uint64_t done, uint64_t total)
{
    double now, ran;
    end_if_asked();
    if (wanted == NEVER || done == 0 || total == 0) return;
    now = seconds();
    ran = now - began;
    if ((shown && now - said < 1) || (wanted == TERMINAL && ran < 1)) return;
    fprintf(stderr, "\r%s: %d%%, about %.0f s left\033[K", work, (int)(100 * done / total), ran * (double)(total - done) / (double)done);
    fflush(stderr);
    shown = 1;
    said = now;
}

void progress_end(void)
{
    if (shown) fputs(wanted == ALWAYS ? "\n" : "\r\033[K", stderr);
    shown = 0;
}
