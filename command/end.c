/* How a command ends: statuses, signals, closed streams. */
#include "end.h"

#include <errno.h>
#include <fcntl.h>
#include <signal.h>
#include <stdarg.h>
#include <stdint.h>
#include <stdio.h>
#include <stdlib.h>
#include <string.h>
#include <unistd.h>

static void (*to_do[4])(void);
static size_t to_do_count;
static volatile sig_atomic_t asked;

void at_end(void (*cleans)(void))
{
    for (size_t i = 0; i < to_do_count; i++)
        if (to_do[i] == cleans) return;
    to_do[to_do_count++] = cleans;
}

static void clean(void)
{
    while (to_do_count > 0) to_do[--to_do_count]();
}

__attribute__((noreturn)) static void end_by(int number)
{
    clean();
    signal(number, SIG_DFL);
    raise(number);
    _exit(128 + number);
}

void fail(int status, const char *sentence, ...)
{
    va_list words;
    fflush(stdout);
    va_start(words, sentence);
    fputs("terrain: ", stderr);
    vfprintf(stderr, sentence, words);
    fputc('\n', stderr);
    va_end(words);
    clean();
    _exit(status);
}

void reader_gone(void)
{
    end_by(SIGPIPE);
}

void end_if_asked(void)
{
    if (asked) end_by(asked);
}

static void note(int number)
{
    asked = number;
}

void begin(void)
{
    static const int ending[] = {SIGINT, SIGTERM, SIGHUP};
    struct sigaction noting;
    /* the wrong way round: reading from 0 and writing to 1 then fail as they do where the stream is closed */
    static const int ways[] = {O_WRONLY, O_RDONLY, O_WRONLY};
    for (int fd = 0; fd < 3; fd++)
        if (fcntl(fd, F_GETFD) < 0 && open("/dev/null", ways[fd]) != fd) _exit(STATUS_UNABLE);
    memset(&noting, 0, sizeof noting);
    noting.sa_handler = note; /* no SA_RESTART: a read that waits comes back */
    for (size_t i = 0; i < sizeof ending / sizeof *ending; i++) sigaction(ending[i], &noting, NULL);
    signal(SIGPIPE, SIG_IGN); /* told by EPIPE */
    signal(SIGXFSZ, SIG_IGN); /* told by EFBIG */
}

void finish(int status)
{
    if (fflush(stdout) != 0 || ferror(stdout)) {
        if (errno == EPIPE) reader_gone();
        fail(STATUS_UNWRITTEN, "standard output: it cannot be written: %s", strerror(errno));
    }
    clean();
    exit(status);
}

void *lent(unsigned long long count, unsigned long long size, const char *name)
{
    void *memory = count > SIZE_MAX / size ? NULL : malloc(count == 0 ? 1 : count * size);
    if (!memory) fail(STATUS_UNABLE, "%s: there is not enough memory for it", name);
    return memory;
}
