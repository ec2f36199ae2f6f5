/* terrain sum: the SHA-256 of a map's fixed form: equal exactly when size and heights are equal, whatever the files look like. */
#include <stdio.h>

#include "commands.h"
#include "end.h"
#include "form.h"
#include "progress.h"
#include "sha256.h"

static void take(void *to, const void *bytes, size_t count)
{
    sha256_take((Sha256 *)to, bytes, count);
}

int sum(const Words *words)
{
    Map map = map_read(words->word[0], ANY_SIZE);
    char text[65];
    Sha256 s;
    sha256_begin(&s);
    progress_begin("summing");
    form_bytes(&map, take, &s);
    progress_end();
    sha256_end(&s, text);
    puts(text);
    return STATUS_DONE;
}
