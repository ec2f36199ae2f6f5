/* Inputs: opened, looked at, read to the end. */
#include "input.h"

#include <errno.h>
#include <fcntl.h>
#include <string.h>
#include <sys/stat.h>
#include <unistd.h>

#include "end.h"

/* The regular files that were opened. A command has two inputs at most, but for tiles, which are not written over. */
static struct {
    dev_t device;
    ino_t file;
} opened[2];
static size_t opened_count;

static void note(const struct stat *about)
{
    if (opened_count == sizeof opened / sizeof *opened || !S_ISREG(about->st_mode)) return;
    opened[opened_count].device = about->st_dev;
    opened[opened_count++].file = about->st_ino;
}

int was_input(const char *path)
{
    struct stat about;
    if (strcmp(path, "-") == 0 || stat(path, &about) != 0) return 0;
    for (size_t i = 0; i < opened_count; i++)
        if (opened[i].device == about.st_dev && opened[i].file == about.st_ino) return 1;
    return 0;
}

Input input_open(const char *path)
{
    int standard = strcmp(path, "-") == 0;
    Input in = {standard ? "standard input" : path, standard ? 0 : open(path, O_RDONLY | O_CLOEXEC), 0, 0, {0}, 0};
    struct stat about;
    if (in.fd < 0 && errno == ENOENT) fail(STATUS_UNREADABLE, "%s: there is no such file", in.name);
    if (in.fd < 0 && errno == EACCES) fail(STATUS_UNREADABLE, "%s: it cannot be read: there is no permission", in.name);
    if (in.fd < 0 || fstat(in.fd, &about) != 0) fail(STATUS_UNREADABLE, "%s: it cannot be read: %s", in.name, strerror(errno));
    if (S_ISDIR(about.st_mode)) fail(STATUS_UNREADABLE, "%s: it is a directory, and a map is a file", in.name);
    if (S_ISREG(about.st_mode)) in.size = (uint64_t)about.st_size;
    note(&about);
    return in;
}

static size_t read_some(Input *in, uint8_t *to, size_t room)
{
    for (;;) {
        ssize_t got = read(in->fd, to, room);
        end_if_asked();
        if (got >= 0) return (size_t)got;
        if (errno != EINTR && errno != EAGAIN) fail(STATUS_UNREADABLE, "%s: it cannot be read to its end: %s", in->name, strerror(errno));
    }
}

size_t input_read(Input *in, uint8_t *to, size_t room)
{
    size_t got = in->looked < room ? in->looked : room;
    if (got > 0) {
        memcpy(to, in->ahead, got);
        memmove(in->ahead, in->ahead + got, in->looked -= got);
    } else {
        got = read_some(in, to, room);
    }
    in->at += got;
    return got;
}

size_t input_look(Input *in, uint8_t *to, size_t count)
{
    size_t got = 1;
    while (in->looked < count && got > 0) in->looked += got = read_some(in, in->ahead + in->looked, count - in->looked);
    if (count > in->looked) count = in->looked;
    memcpy(to, in->ahead, count);
    return count;
}

void input_close(Input *in)
{
    if (in->fd > 2) close(in->fd);
}
