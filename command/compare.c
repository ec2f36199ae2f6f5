/* terrain compare: whether two maps are equal; if not, how many heights differ, the first of them, the largest difference, and a picture of where. */
#include <stdio.h>
#include <string.h>

#include "commands.h"
#include "differences.h"
#include "end.h"
#include "picture.h"

static void tell(FILE *report, const char *what, const Map *a, const Map *b, size_t i)
{
    fprintf(report, "%s: row %zu, column %zu: %u and %u, %+d\n", what, i / a->width, i % a->width, a->heights[i], b->heights[i], difference(a, b, i));
}

static void draw(const Map *a, const Map *b, const Differences *d, const char *path)
{
    Output out = picture_open(path);
    Picture picture = picture_of_differences(out.name, a, b, d);
    picture_write(&out, &picture);
    output_keep(&out);
}

int compare(const Words *words)
{
    const char *to = words->count == 3 ? words->word[2] : NULL;
    if (strcmp(words->word[0], "-") == 0 && strcmp(words->word[1], "-") == 0) usage_is(words);
    if (to) png_named(to);
    Map a = map_read(words->word[0], ANY_SIZE), b = map_read(words->word[1], ANY_SIZE);
    FILE *report = to && output_is_stream(to) ? stderr : stdout;
    if (a.width != b.width || a.height != b.height) {
        fprintf(report, "different: %zu x %zu heights and %zu x %zu%s\n", a.width, a.height, b.width, b.height, to ? "; no picture is drawn" : "");
        return STATUS_DIFFERENT;
    }
    Differences d = differences_of(&a, &b);
    if (to) draw(&a, &b, &d, to);
    if (d.count == 0) {
        fprintf(report, "equal: %zu x %zu heights\n", a.width, a.height);
        return STATUS_DONE;
    }
    fprintf(report, "different: %llu of %zu x %zu heights; %llu are higher in the second map, %llu lower\n", (unsigned long long)d.count, a.width, a.height,
            (unsigned long long)d.raised, (unsigned long long)(d.count - d.raised));
    tell(report, "first", &a, &b, d.first);
    tell(report, "largest difference", &a, &b, d.largest);
    return STATUS_DIFFERENT;
}
