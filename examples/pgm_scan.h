/* A binary PGM (Netpbm, P5) of 8 or 16 bits, read byte by byte: its header, its heights, and what is wrong with it and where, in a sentence. Bytes come in
 * pieces of any size, so that the same rules serve a file, a pipe and a program that only looks on. Places are counted from 0. C and C++. */
#ifndef PGM_SCAN_H
#define PGM_SCAN_H

#include <stdint.h>
#include <stdio.h>
#include <string.h>

enum { PGM_WIDTH, PGM_HEIGHT, PGM_MOST, PGM_HEAD }; /* the numbers of a header, in their order; PGM_HEAD: it is whole */

#define PGM_HUGE 1000000000000000000u /* a number with more digits is read as this one */

typedef struct {
    uint64_t columns, rows; /* the largest map that is taken */
    const char *reader;     /* who takes it */
} PgmLimits;

typedef struct {
    PgmLimits limits;
    uint64_t number[PGM_HEAD]; /* width, height, largest height */
    uint64_t at;               /* bytes so far */
    uint64_t samples;          /* heights so far */
    uint16_t *heights;         /* where they go, if that is wanted: the caller sets it when the header is whole */
    int field, digits, gapped, comment;
    int half, high;            /* the first byte of a height of two */
    char wrong[200];           /* why it is no map; empty: nothing is wrong so far */
} PgmScan;

static inline PgmScan pgm_scan_begin(PgmLimits limits)
{
    PgmScan s;
    memset(&s, 0, sizeof s);
    s.limits = limits;
    return s;
}

/* A number with its thousands parted. Eight texts live at a time. */
static inline const char *pgm_grouped(uint64_t n)
{
    static char texts[8][32];
    static int next;
    char *to = texts[next = (next + 1) % 8] + sizeof *texts - 1;
    int digits = 0;
    for (*to = 0; digits == 0 || n; n /= 10) {
        if (digits && digits % 3 == 0) *--to = ',';
        *--to = (char)('0' + n % 10);
        digits++;
    }
    return to;
}

/* What a byte is called. */
static inline const char *pgm_byte_name(int c)
{
    static char text[16];
    if (c > ' ' && c < 127) snprintf(text, sizeof text, "'%c'", c);
    else snprintf(text, sizeof text, "byte %d", c);
    return text;
}

static inline const char *pgm_field_name(int field)
{
    static const char *const names[] = {"its width", "its height", "its largest height"};
    return names[field];
}

static inline int pgm_is_space(int c)
{
    return c == ' ' || c == '\t' || c == '\r' || c == '\n';
}

/* The number that has just ended is within its limits, or it says why not. */
static inline void pgm_number_ends(PgmScan *s)
{
    uint64_t n = s->number[s->field];
    uint64_t most = s->field == PGM_WIDTH ? s->limits.columns : s->field == PGM_HEIGHT ? s->limits.rows : 65535;
    const char *more = n >= PGM_HUGE ? "more than " : "";
    if (n == 0) snprintf(s->wrong, sizeof s->wrong, "%s is 0 (byte %s)", pgm_field_name(s->field), pgm_grouped(s->at - 1));
    else if (n > most && s->field == PGM_MOST)
        snprintf(s->wrong, sizeof s->wrong, "its largest height is %s%s, and a PGM has at most 65,535", more, pgm_grouped(n));
    else if (n > most)
        snprintf(s->wrong, sizeof s->wrong, "%s%s %s; %s at most %s", more, pgm_grouped(n), s->field == PGM_WIDTH ? "columns" : "rows", s->limits.reader,
                 pgm_grouped(most));
    s->field++;
    s->digits = 0;
}

/* The third byte on: gaps (one whitespace byte, or a comment with the CR or LF that ends it) and numbers; exactly one gap after the last number. */
static inline void pgm_header_byte(PgmScan *s, int c)
{
    int gap = s->comment ? c == '\n' || c == '\r' : pgm_is_space(c) || c == '#';
    if (s->comment) {
        if (gap) s->comment = 0;
    } else if (gap) {
        if (s->digits) pgm_number_ends(s);
        s->gapped = 1;
        s->comment = c == '#';
    } else if (c >= '0' && c <= '9' && s->gapped) {
        uint64_t *n = &s->number[s->field];
        *n = *n < PGM_HUGE / 10 ? 10 * *n + (uint64_t)(c - '0') : PGM_HUGE;
        s->digits++;
    } else {
        const char *wanted = !s->gapped || s->digits ? "whitespace or a comment" : pgm_field_name(s->field);
        snprintf(s->wrong, sizeof s->wrong, "%s stands at byte %s, where %s is wanted", pgm_byte_name(c), pgm_grouped(s->at), wanted);
    }
}

static inline int pgm_head_whole(const PgmScan *s)
{
    return s->field == PGM_HEAD && !s->comment;
}

/* How many heights there are by the header; too many for any number are the largest one. */
static inline uint64_t pgm_count(const PgmScan *s)
{
    uint64_t width = s->number[PGM_WIDTH], height = s->number[PGM_HEIGHT];
    return height > UINT64_MAX / width ? UINT64_MAX : width * height;
}

static inline void pgm_height(PgmScan *s, int height, int bytes)
{
    uint64_t width = s->number[PGM_WIDTH], i = s->samples++;
    if ((uint64_t)height > s->number[PGM_MOST])
        snprintf(s->wrong, sizeof s->wrong, "the height %s in row %s, column %s (byte %s) is above %s, the largest that its header names",
                 pgm_grouped((uint64_t)height), pgm_grouped(i / width), pgm_grouped(i % width), pgm_grouped(s->at + 1 - (uint64_t)bytes),
                 pgm_grouped(s->number[PGM_MOST]));
    if (s->heights) s->heights[i] = (uint16_t)height;
}

static inline void pgm_sample_byte(PgmScan *s, int c)
{
    if (s->samples == pgm_count(s)) {
        snprintf(s->wrong, sizeof s->wrong, "more follows its last height, from byte %s on", pgm_grouped(s->at));
    } else if (s->number[PGM_MOST] < 256) {
        pgm_height(s, c, 1);
    } else if (s->half) {
        s->half = 0;
        pgm_height(s, s->high << 8 | c, 2);
    } else {
        s->half = 1;
        s->high = c;
    }
}

/* Takes bytes up to the end of the header, or all of them after it, or as far as something is wrong; how many. */
static inline size_t pgm_scan(PgmScan *s, const uint8_t *bytes, size_t length)
{
    size_t i = 0;
    int header = !pgm_head_whole(s);
    for (; i < length && !s->wrong[0] && (!header || !pgm_head_whole(s)); i++, s->at++) {
        if (!header) pgm_sample_byte(s, bytes[i]);
        else if (s->at > 1) pgm_header_byte(s, bytes[i]);
        else if (bytes[i] != "P5"[s->at]) snprintf(s->wrong, sizeof s->wrong, "it is not a binary PGM: it does not begin with P5");
    }
    return i;
}

/* The input ends here. */
static inline void pgm_scan_end(PgmScan *s)
{
    uint64_t width = s->number[PGM_WIDTH];
    if (s->wrong[0]) return;
    if (s->at == 0) snprintf(s->wrong, sizeof s->wrong, "it is empty");
    else if (!pgm_head_whole(s)) snprintf(s->wrong, sizeof s->wrong, "it ends inside its header, after %s bytes", pgm_grouped(s->at));
    else if (s->samples < pgm_count(s))
        snprintf(s->wrong, sizeof s->wrong, "it ends after %s bytes, before its last height: row %s, column %s of its %s x %s heights is missing",
                 pgm_grouped(s->at), pgm_grouped(s->samples / width), pgm_grouped(s->samples % width), pgm_grouped(width),
                 pgm_grouped(s->number[PGM_HEIGHT]));
}

#endif
