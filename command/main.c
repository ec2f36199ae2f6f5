/* terrain: the library for people. */
#include <stdio.h>
#include <string.h>
#include <terrain.h>

#include "commands.h"
#include "end.h"

static const char *const check_options[] = {"--seed", NULL};
static const char *const round_options[] = {"--levels", NULL};
static const char *const convert_options[] = {"--from", "--to", "--size", NULL};
static const char *const pack_options[] = {"--levels", "--step", NULL};
static const char *const tile_options[] = {"--size", "!--join", NULL};

static const Command commands[] = {
    {"check", "[--seed N] FILE", 1, 1, check_options, check},
    {"sum", "FILE", 1, 1, NULL, sum},
    {"compare", "A B [OUT.png]", 2, 3, NULL, compare},
    {"shade", "FILE OUT.png", 2, 2, NULL, shade},
    {"bands", "LEVELS FILE OUT.png (or OUT.pgm)", 3, 3, NULL, bands},
    {"near", "FILE OUT.png", 2, 2, NULL, near},
    {"far", "LEVEL FILE OUT.png (or OUT.pgm)", 3, 3, NULL, far},
    {"round", "[--levels N] STEP FILE OUT.png (or OUT.pgm)", 3, 3, round_options, rounding},
    {"convert", "[--from FORM] [--to FORM] [--size WxH] FILE OUT", 2, 2, convert_options, convert},
    {"tile", "[--size WxH] FILE FOLDER, or terrain tile --join FOLDER OUT.pgm", 2, 2, tile_options, tile},
    {"pack", "[--levels N] [--step N] FILE OUT", 2, 2, pack_options, pack},
    {"unpack", "FILE OUT.pgm", 2, 2, NULL, unpack},
    {"info", "FILE", 1, 1, NULL, info},
    {"list", "LEVELS FILE.pgm", 2, 2, NULL, list},
    {"rewrite", "FILE.pgm OUT.pgm", 2, 2, NULL, rewrite},
};

static const Command *command_called(const char *name)
{
    for (size_t i = 0; i < sizeof commands / sizeof *commands; i++)
        if (strcmp(commands[i].name, name) == 0) return &commands[i];
    fail(STATUS_USAGE, "there is no command '%s' (terrain --help lists them)", name);
}

/* Whether a word asks for help, before `--`. */
static int asks_for_help(int count, char **given)
{
    for (int i = 0; i < count && strcmp(given[i], "--") != 0; i++)
        if (strcmp(given[i], "--help") == 0 || strcmp(given[i], "-h") == 0) return 1;
    return 0;
}

static int is_one_of(const char *word, const char *a, const char *b, const char *c)
{
    return strcmp(word, a) == 0 || strcmp(word, b) == 0 || strcmp(word, c) == 0;
}

int main(int count, char **given)
{
    const Command *command;
    Words words;
    begin();
    if (terrain_version() != TERRAIN_VERSION)
        fail(STATUS_UNABLE, "the archive's version is %u and the header's %u: they do not belong together", (unsigned)terrain_version(),
             (unsigned)TERRAIN_VERSION);
    if (count < 2 || (is_one_of(given[1], "--help", "-h", "help") && count < 3)) {
        help();
        finish(STATUS_DONE);
    }
    if (is_one_of(given[1], "--version", "version", "-V")) {
        puts("terrain " TERRAIN_VERSION_TEXT);
        finish(STATUS_DONE);
    }
    command = command_called(strcmp(given[1], "help") == 0 ? given[2] : given[1]);
    if (strcmp(given[1], "help") == 0 || asks_for_help(count - 2, given + 2)) finish(help_of(command->name));
    words = words_of(command, count - 2, given + 2);
    finish(command->run(&words));
}
