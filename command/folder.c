/* Folders: made beside their place, renamed when whole, removed where a command ends early. */
#include "folder.h"

#include <dirent.h>
#include <errno.h>
#include <fcntl.h>
#include <limits.h>
#include <stdio.h>
#include <stdlib.h>
#include <string.h>
#include <sys/stat.h>
#include <unistd.h>

#include "end.h"

static const char *final;
static char unfinished[PATH_MAX];

static void remove_unfinished(void)
{
    char path[2 * PATH_MAX];
    DIR *folder = unfinished[0] ? opendir(unfinished) : NULL;
    for (struct dirent *entry; folder && (entry = readdir(folder));) {
        snprintf(path, sizeof path, "%s/%s", unfinished, entry->d_name);
        unlink(path);
    }
    if (folder) closedir(folder);
    if (unfinished[0]) rmdir(unfinished);
    unfinished[0] = 0;
}

__attribute__((noreturn)) static void unmade(void)
{
    fail(STATUS_UNWRITTEN, "%s: it cannot be made: %s", final, strerror(errno));
}

/* Nothing stands there, or an empty folder, which a rename replaces. */
static void is_free(void)
{
    DIR *folder = opendir(final);
    int entries = 0;
    if (!folder && errno != ENOENT) unmade();
    while (folder && readdir(folder)) entries++;
    if (folder) closedir(folder);
    if (entries > 2) fail(STATUS_UNWRITTEN, "%s: it is not empty, and nothing in it is replaced", final);
}

void folder_begin(const char *path)
{
    size_t length = strlen(path);
    mode_t mask = umask(0);
    umask(mask);
    final = path;
    while (length > 1 && path[length - 1] == '/') length--;
    is_free();
    if (snprintf(unfinished, sizeof unfinished, "%.*s.XXXXXX", (int)length, path) >= (int)sizeof unfinished) errno = ENAMETOOLONG, unmade();
    if (!mkdtemp(unfinished)) unfinished[0] = 0, unmade();
    at_end(remove_unfinished);
    if (chmod(unfinished, 0777 & ~mask) != 0) unmade();
}

const char *folder_file(const char *name)
{
    static char path[2 * PATH_MAX];
    snprintf(path, sizeof path, "%s/%s", unfinished, name);
    return path;
}

void folder_keep(void)
{
    int fd = open(unfinished, O_RDONLY | O_DIRECTORY | O_CLOEXEC);
    if (fd < 0 || syncfs(fd) != 0) unmade(); /* once, not for each of many files */
    close(fd);
    if (rename(unfinished, final) != 0) unmade();
    unfinished[0] = 0;
}
