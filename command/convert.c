/* terrain convert: a map from one form of file into another, every height as it is. */
#include <stdio.h>
#include <string.h>

#include "commands.h"
#include "end.h"
#include "form.h"
#include "picture.h"
#include "raw.h"

typedef enum { UNKNOWN, PGM, PNG, PNG8, RAW, RAW_BIG } Form;

static Form form_called(const char *name)
{
    static const char *const names[] = {"pgm", "png", "png8", "raw", "raw-big"};
    for (int i = 0; i < 5; i++)
        if (strcmp(name, names[i]) == 0) return (Form)(PGM + i);
    fail(STATUS_USAGE, "a form is pgm, png, png8, raw or raw-big, not '%s'", name);
}

/* By the ending of a name. */
static Form form_of(const char *path)
{
    if (ends_in(path, ".pgm")) return PGM;
    if (ends_in(path, ".png")) return PNG;
    return ends_in(path, ".raw") || ends_in(path, ".r16") ? RAW : UNKNOWN;
}

/* RAW by its name, since nothing in it tells; all else by its first bytes. */
static Map read_as(const char *path, Form form, const char *size)
{
    Input in = input_open(path);
    if (form == UNKNOWN) form = form_of(path);
    if (form == RAW || form == RAW_BIG) return raw_read(&in, size, form == RAW_BIG ? BIG : LITTLE);
    if (size) fail(STATUS_USAGE, "--size is for RAW (--from raw, or a name that ends in .raw or .r16); %s says its size itself", in.name);
    return map_from(&in, ANY_SIZE);
}

/* Eight bits are enough, or the end. */
static void fits_a_byte(const char *name, const Map *map)
{
    for (size_t i = 0; i < map->width * map->height; i++)
        if (map->heights[i] > 255)
            fail(STATUS_REFUSED, "%s: the height %s in row %s, column %s is above 255, the largest of 8 bits", name, pgm_grouped(map->heights[i]),
                 pgm_grouped(i / map->width), pgm_grouped(i % map->width));
}

static void write_as(const char *path, Form form, const Map *map)
{
    Output out = output_open(path);
    Picture picture = {map->width, map->height, 1, form == PNG8 ? 8 : 16, map->heights};
    switch (form) {
    case PNG:
    case PNG8: png_write(&out, &picture); break;
    case RAW: raw_write(&out, map, LITTLE); break;
    case RAW_BIG: raw_write(&out, map, BIG); break;
    default: form_write(&out, map);
    }
    output_keep(&out);
}

int convert(const Words *words)
{
    const char *path = words->word[0], *to = words->word[1];
    Form from = option(words, "--from") ? form_called(option(words, "--from")) : UNKNOWN;
    Form into = option(words, "--to") ? form_called(option(words, "--to")) : form_of(to);
    if (into == UNKNOWN && output_is_stream(to)) into = PGM;
    if (into == UNKNOWN) fail(STATUS_USAGE, "%s: its name ends in none of .pgm, .png, .raw and .r16: say --to FORM", to);
    Map map = read_as(path, from, option(words, "--size"));
    if (into == PNG8) fits_a_byte(path, &map);
    write_as(to, into, &map);
    if (map.most < 256 && into != PNG8)
        fprintf(stderr, "terrain: %s: its heights are of 8 bits, and they are not scaled: the largest is still at most %u\n", path, map.most);
    return STATUS_DONE;
}
