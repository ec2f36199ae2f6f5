/* A program run over pipes: what it reads, writes and says. */
#include "child.h"

#include <errno.h>
#include <fcntl.h>
#include <limits.h>
#include <poll.h>
#include <signal.h>
#include <spawn.h>
#include <stdio.h>
#include <string.h>
#include <sys/wait.h>
#include <unistd.h>

#include "end.h"
#include "progress.h"

#ifndef PROGRAMS /* the folder of the programs, from this one's */
#define PROGRAMS "."
#endif

enum { PIECE = 65536 };

/* The bytes between input and program, and the ends of its three pipes that are ours; -1: closed. */
typedef struct {
    pid_t pid;
    int in, out, error;
    uint8_t piece[PIECE];
    size_t held, sent;
    int ended; /* the input */
    char said[200];
    size_t said_length;
} Child;

extern char **environ;

/* The program's path: beside this program, or as PROGRAMS says. */
static void path_of(const char *name, char path[PATH_MAX])
{
    char own[PATH_MAX];
    ssize_t length = readlink("/proc/self/exe", own, sizeof own - 1);
    own[length < 0 ? 0 : length] = 0;
    if (strrchr(own, '/')) *strrchr(own, '/') = 0;
    if (snprintf(path, PATH_MAX, "%s/" PROGRAMS "/%s", own, name) >= PATH_MAX || access(path, X_OK) != 0)
        fail(STATUS_UNABLE, "the program %s is not there: %s", name, path);
}

static void start(Child *child, const char *name)
{
    char path[PATH_MAX];
    char *const words[] = {(char *)name, NULL};
    int in[2], out[2], error[2], no;
    posix_spawn_file_actions_t actions;
    path_of(name, path);
    if (pipe2(in, O_CLOEXEC) != 0 || pipe2(out, O_CLOEXEC) != 0 || pipe2(error, O_CLOEXEC) != 0)
        fail(STATUS_UNABLE, "the program %s cannot be started: %s", name, strerror(errno));
    posix_spawn_file_actions_init(&actions);
    posix_spawn_file_actions_adddup2(&actions, in[0], 0);
    posix_spawn_file_actions_adddup2(&actions, out[1], 1);
    posix_spawn_file_actions_adddup2(&actions, error[1], 2);
    no = posix_spawn(&child->pid, path, &actions, NULL, words, environ);
    if (no != 0) fail(STATUS_UNABLE, "the program %s cannot be started: %s", name, strerror(no));
    posix_spawn_file_actions_destroy(&actions);
    close(in[0]), close(out[1]), close(error[1]);
    child->in = in[1], child->out = out[0], child->error = error[0];
    fcntl(child->in, F_SETFL, O_NONBLOCK);
}

static void close_pipe(int *fd)
{
    if (*fd >= 0) close(*fd);
    *fd = -1;
}

/* The next piece of the input, looked at. */
static void fetch(Child *child, Input *in, const Watch *watch)
{
    child->held = input_read(in, child->piece, PIECE);
    child->sent = 0;
    child->ended = child->held == 0;
    watch->in(watch->to, child->piece, child->held);
    progress(in->at, in->size);
}

/* As much of the piece as the program takes; after a refusal it may take no more, and that is no failure. */
static void feed(Child *child)
{
    ssize_t took = write(child->in, child->piece + child->sent, child->held - child->sent);
    if (took > 0) child->sent += (size_t)took;
    else if (took < 0 && errno != EAGAIN && errno != EINTR) close_pipe(&child->in);
}

/* What the program wrote since. */
static void take(Child *child, const Watch *watch)
{
    static uint8_t bytes[PIECE];
    ssize_t got = read(child->out, bytes, sizeof bytes);
    if (got > 0) watch->out(watch->to, bytes, (size_t)got);
    else if (got == 0 || errno != EINTR) close_pipe(&child->out);
}

static void listen_to(Child *child)
{
    char bytes[256];
    ssize_t got = read(child->error, bytes, sizeof bytes);
    size_t room = sizeof child->said - 1 - child->said_length;
    if (got == 0 || (got < 0 && errno != EINTR)) close_pipe(&child->error);
    if (got <= 0) return;
    if ((size_t)got < room) room = (size_t)got;
    memcpy(child->said + child->said_length, bytes, room);
    child->said_length += room;
}

/* One turn: whatever can go on without waiting goes on. */
static void turn(Child *child, Input *in, const Watch *watch)
{
    int empty = child->sent == child->held;
    if (child->in >= 0 && empty && child->ended) close_pipe(&child->in);
    struct pollfd ways[] = {
        {child->in >= 0 && empty && in->looked == 0 ? in->fd : -1, POLLIN, 0},
        {child->in >= 0 && (!empty || in->looked > 0) ? child->in : -1, POLLOUT, 0},
        {child->out, POLLIN, 0},
        {child->error, POLLIN, 0},
    };
    poll(ways, 4, -1);
    end_if_asked();
    if (ways[0].revents || (ways[1].revents && empty)) fetch(child, in, watch);
    else if (ways[1].revents) feed(child);
    if (ways[2].revents) take(child, watch);
    if (ways[3].revents) listen_to(child);
}

void child_run(const char *name, const char *first, Input *in, const Watch *watch)
{
    static Child child;
    int status = 0;
    start(&child, name);
    child.held = strlen(first);
    memcpy(child.piece, first, child.held);
    progress_begin(name);
    while (child.out >= 0 || child.error >= 0) turn(&child, in, watch);
    close_pipe(&child.in);
    while (waitpid(child.pid, &status, 0) < 0 && errno == EINTR) end_if_asked();
    progress_end();
    child.said[strcspn(child.said, "\n")] = 0;
    if (child.said[0]) fail(STATUS_UNABLE, "the program %s failed: %s", name, child.said);
    if (status != 0) fail(STATUS_UNABLE, "the program %s ended with status %d", name, WIFEXITED(status) ? WEXITSTATUS(status) : 128 + WTERMSIG(status));
}
