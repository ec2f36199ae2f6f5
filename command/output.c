/* Outputs: a temporary file that is renamed, or a stream that is written as it is. */
#include "output.h"

#include <errno.h>
#include <fcntl.h>
#include <libgen.h>
#include <limits.h>
#include <stdlib.h>
#include <string.h>
#include <sys/stat.h>
#include <unistd.h>

#include "end.h"

/* The temporary file of the output under way, for the end of a command that ends early. */
static char unfinished[PATH_MAX];

static void remove_unfinished(void)
{
    if (unfinished[0]) unlink(unfinished);
    unfinished[0] = 0;
}

__attribute__((noreturn)) static void unwritten(const char *name)
{
    if (errno == EPIPE) reader_gone();
    fail(STATUS_UNWRITTEN, "%s: it cannot be written: %s", name, strerror(errno));
}

/* The folder of a path, and the last name in it. */
static void parts(const char *path, char folder[PATH_MAX], char last[PATH_MAX])
{
    char copy[PATH_MAX];
    snprintf(copy, sizeof copy, "%s", path);
    if (!realpath(dirname(copy), folder)) unwritten(path);
    snprintf(copy, sizeof copy, "%s", path);
    snprintf(last, PATH_MAX, "%s", basename(copy));
}

/* A name in a folder, or the folder alone. */
static void join(char to[PATH_MAX], const char *folder, const char *name, const char *path)
{
    size_t length = strlen(folder);
    const char *between = *name && length > 0 && folder[length - 1] != '/' ? "/" : "";
    if (snprintf(to, PATH_MAX, "%s%s%s", folder, between, name) < PATH_MAX) return;
    errno = ENAMETOOLONG;
    unwritten(path);
}

/* Where the links that a path names end: at a name that is no link, existing or not. -1: not at a descriptor of ours; else its number. */
static int resolve(const char *path, char end[PATH_MAX])
{
    char folder[PATH_MAX], last[PATH_MAX], own[64], link[PATH_MAX], next[PATH_MAX];
    snprintf(own, sizeof own, "/proc/%ld/fd", (long)getpid());
    join(next, path, "", path);
    for (int links = 0; links < 40; links++) {
        ssize_t length;
        parts(next, folder, last);
        if (strcmp(folder, own) == 0) return atoi(last);
        join(end, folder, last, path);
        if ((length = readlink(end, link, sizeof link - 1)) < 0) return -1;
        link[length] = 0;
        join(next, link[0] == '/' ? link : folder, link[0] == '/' ? "" : link, path);
    }
    errno = ELOOP;
    unwritten(path);
}

/* A stream over a descriptor that was opened. */
static void stream(Output *out, int fd)
{
    out->file = fd < 0 ? NULL : fdopen(fd, "wb");
    if (!out->file) unwritten(out->name);
}

/* A temporary file beside the one that it is to replace, with its mode and its owner. */
static void beside(Output *out, const char *final, const struct stat *before)
{
    mode_t mask = umask(0);
    int fd;
    umask(mask);
    if (before && access(final, W_OK) != 0) unwritten(out->name);
    if (snprintf(unfinished, sizeof unfinished, "%s.XXXXXX", final) >= (int)sizeof unfinished) errno = ENAMETOOLONG, unwritten(out->name);
    fd = mkostemp(unfinished, O_CLOEXEC);
    if (fd < 0) {
        unfinished[0] = 0;
        fail(STATUS_UNWRITTEN, "%s: it cannot be written: no file can be made beside it: %s", out->name, strerror(errno));
    }
    at_end(remove_unfinished);
    if (before) (void)!fchown(fd, before->st_uid, before->st_gid); /* where that is allowed */
    if (fchmod(fd, before ? before->st_mode & 07777 : 0666 & ~mask) != 0) unwritten(out->name);
    stream(out, fd);
    out->final = strdup(final);
    out->temporary = unfinished;
}

Output output_open(const char *path)
{
    Output out = {path, stdout, NULL, NULL};
    char final[PATH_MAX];
    struct stat about;
    int own, there;
    if (strcmp(path, "-") == 0) {
        out.name = "standard output";
        return out;
    }
    if ((own = resolve(path, final)) == 1) return out;
    if (own >= 0) {
        stream(&out, dup(own));
        return out;
    }
    there = stat(final, &about) == 0;
    if (there && S_ISDIR(about.st_mode)) errno = EISDIR, unwritten(path);
    if (there && !S_ISREG(about.st_mode)) stream(&out, open(final, O_WRONLY | O_CLOEXEC));
    else beside(&out, final, there ? &about : NULL);
    return out;
}

Output output_within(const char *path)
{
    Output out = {path, NULL, NULL, NULL};
    stream(&out, open(path, O_WRONLY | O_CREAT | O_EXCL | O_CLOEXEC, 0666));
    return out;
}

void output_write(Output *out, const void *bytes, size_t count)
{
    end_if_asked();
    if (fwrite(bytes, 1, count, out->file) != count) unwritten(out->name);
}

void output_flush(Output *out)
{
    if (fflush(out->file) != 0) unwritten(out->name);
}

/* The folder's own entry, so that the new name outlives a crash; a file system that cannot is let be. */
static void sync_folder(const char *path)
{
    char copy[PATH_MAX];
    int fd;
    snprintf(copy, sizeof copy, "%s", path);
    fd = open(dirname(copy), O_RDONLY | O_DIRECTORY | O_CLOEXEC);
    if (fd < 0) return;
    (void)!fsync(fd);
    close(fd);
}

void output_keep(Output *out)
{
    output_flush(out);
    /* EINVAL: a file system that knows no sync */
    if (out->temporary && fsync(fileno(out->file)) != 0 && errno != EINVAL) unwritten(out->name);
    if (out->file != stdout && fclose(out->file) != 0) unwritten(out->name);
    if (!out->temporary) return;
    end_if_asked();
    if (rename(out->temporary, out->final) != 0) unwritten(out->name);
    unfinished[0] = 0;
    sync_folder(out->final);
    free(out->final);
}

void output_drop(Output *out)
{
    if (out->file != stdout) fclose(out->file);
    remove_unfinished();
    free(out->final);
}

int output_is_stream(const char *path)
{
    char final[PATH_MAX];
    struct stat about;
    return strcmp(path, "-") == 0 || resolve(path, final) >= 0 || (stat(final, &about) == 0 && !S_ISREG(about.st_mode) && !S_ISDIR(about.st_mode));
}

FILE *output_report(const Output *out)
{
    return out->file == stdout ? stderr : stdout;
}
