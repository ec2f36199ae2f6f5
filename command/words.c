/* The words and options of a command line. */
#include "words.h"

#include <errno.h>
#include <inttypes.h>
#include <stdlib.h>
#include <string.h>

#include "end.h"

void usage_is(const Words *words)
{
    fail(STATUS_USAGE, "usage: terrain %s %s (terrain %s --help says more)", words->command, words->usage, words->command);
}

/* The place of an option among the command's; its value may follow in the same word, after `=`. */
static int place_of(const Command *command, const char *word, const char **value)
{
    size_t length = strcspn(word, "=");
    for (int i = 0; command->options && command->options[i]; i++) {
        const char *name = command->options[i] + (command->options[i][0] == '!');
        if (strlen(name) != length || memcmp(name, word, length) != 0) continue;
        *value = word[length] ? word + length + 1 : command->options[i][0] == '!' ? "" : NULL;
        return i;
    }
    fail(STATUS_USAGE, "terrain %s has no option '%s' (terrain %s --help says more)", command->name, word, command->name);
}

Words words_of(const Command *command, int count, char **given)
{
    Words words = {command->name, command->usage, {NULL}, 0, {NULL}, command->options};
    int ended = 0;
    for (int i = 0; i < count; i++) {
        const char *value = NULL;
        if (!ended && strcmp(given[i], "--") == 0) {
            ended = 1;
        } else if (!ended && given[i][0] == '-' && given[i][1] != 0) {
            int place = place_of(command, given[i], &value);
            if (!value && ++i == count) usage_is(&words);
            words.option[place] = value ? value : given[i];
        } else {
            if (words.count == command->most) usage_is(&words);
            words.word[words.count++] = given[i];
        }
    }
    if (words.count < command->least) usage_is(&words);
    return words;
}

const char *option(const Words *words, const char *name)
{
    for (int i = 0; words->names && words->names[i]; i++)
        if (strcmp(words->names[i] + (words->names[i][0] == '!'), name) == 0) return words->option[i];
    return NULL;
}

size_t levels_of(const char *word)
{
    if (strlen(word) != 1 || word[0] < '1' || word[0] > '5') fail(STATUS_USAGE, "LEVELS is 1 to 5, not '%s'", word);
    return (size_t)(word[0] - '0');
}

/* The digits at the front of a text as a number, and what follows them. Anything too large is the largest. */
static uint64_t digits(const char *text, const char **after)
{
    char *end = NULL;
    uint64_t n;
    *after = text;
    if (*text < '0' || *text > '9') return 0;
    errno = 0;
    n = strtoull(text, &end, 10);
    *after = end;
    return n;
}

uint64_t number_of(const char *what, const char *text, uint64_t most)
{
    const char *after;
    uint64_t n = digits(text, &after);
    if (after == text || *after || errno == ERANGE || n > most) fail(STATUS_USAGE, "%s is a number, 0 to %" PRIu64 ", not '%s'", what, most, text);
    return n;
}

size_t step_of(const char *word)
{
    const char *after;
    uint64_t n = digits(word, &after);
    if (after == word || *after || n < 1 || n > 64) fail(STATUS_USAGE, "STEP is 1 to 64, not '%s'", word);
    return (size_t)n;
}

void size_of(const char *text, uint64_t *width, uint64_t *height)
{
    const char *after, *end;
    *width = *height = digits(text, &after);
    end = after;
    if (after != text && (*after == 'x' || *after == 'X')) *height = digits(after + 1, &end);
    if (after == text || *end || *width == 0 || *height == 0 || *width > 1000000000 || *height > 1000000000)
        fail(STATUS_USAGE, "a size is WIDTHxHEIGHT, as 1025x513, not '%s'", text);
}
