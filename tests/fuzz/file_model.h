/* The ground file once more, from docs/FORMAT.md: what bytes a plane's file has, and which byte may follow which. Of the library it knows nothing: the order in
 * which a reader wants its rows is told to it. */
#ifndef FILE_MODEL_H
#define FILE_MODEL_H

#include "model.h"

enum { HEAD = 24, FILE_CAP = 1 << 16, MOST_ROWS = 4096, GROUP = 16, PART = 8 };

static const uint8_t WIDTHS[16] = { 0, 1, 2, 3, 4, 5, 6, 7, 8, 9, 10, 11, 13, 16, 20, 28 };

typedef struct {
    Map map;
    size_t step;
    Row rows[MOST_ROWS]; /* in the reader's order */
    size_t count;
} Form;

static inline void put_number(uint8_t *to, uint64_t number, int bytes)
{
    for (int i = 0; i < bytes; i++) to[i] = (uint8_t)(number >> 8 * i);
}

static inline void form_head(const Form *f, uint8_t to[HEAD])
{
    static const uint8_t first[8] = { 0x89, 0x47, 0x4e, 0x44, 0x0d, 0x0a, 0x1a, 0x0a };
    memcpy(to, first, 8);
    put_number(to + 8, 1, 1), put_number(to + 9, f->map.filter, 1), put_number(to + 10, f->map.levels, 1), put_number(to + 11, f->step, 1);
    put_number(to + 12, f->map.across.start, 2), put_number(to + 14, f->map.down.start, 2);
    put_number(to + 16, f->map.across.length, 2), put_number(to + 18, f->map.down.length, 4), put_number(to + 22, 0, 2);
}

static inline uint32_t form_sum(const uint8_t *bytes, size_t n)
{
    uint64_t sum = 0;
    for (size_t i = 0; i < n; i++) sum = (sum * 256 + bytes[i]) % 4293501227u;
    return (uint32_t)sum;
}

/* The smallest width that holds numbers up to `most`, by its place. */
static inline unsigned width_for(uint64_t most)
{
    unsigned code = 0;
    while (most >> WIDTHS[code]) code++;
    return code;
}

static inline uint64_t folded(int64_t v)
{
    return (uint64_t)(v < 0 ? -2 * v - 1 : 2 * v);
}

static inline size_t part_bytes(size_t count, unsigned code)
{
    return (count * WIDTHS[code] + 7) / 8;
}

static inline uint64_t most_of(const uint64_t *numbers, size_t n)
{
    uint64_t most = 0;
    for (size_t i = 0; i < n; i++)
        if (numbers[i] > most) most = numbers[i];
    return most;
}

/* Bit by bit. */
static inline size_t put_part(const uint64_t *numbers, size_t n, unsigned code, uint8_t *to)
{
    size_t bytes = part_bytes(n, code);
    memset(to, 0, bytes);
    for (size_t i = 0; i < n * WIDTHS[code]; i++) to[i / 8] |= (uint8_t)((numbers[i / WIDTHS[code]] >> i % WIDTHS[code] & 1) << i % 8);
    return bytes;
}

static inline size_t put_group(const uint64_t *numbers, size_t n, uint8_t *to)
{
    size_t first = n < PART ? n : PART, at = 1;
    unsigned low = width_for(most_of(numbers, first)), high = width_for(most_of(numbers + first, n - first));
    to[0] = (uint8_t)(low + 16 * high);
    at += put_part(numbers, first, low, to + at);
    return at + put_part(numbers + first, n - first, high, to + at);
}

/* Why a row of a plane cannot be saved: 7, 22 or 0. */
static inline uint32_t row_refused(const Form *f, const Row *r, const int32_t *values)
{
    uint32_t no = 0;
    for (size_t i = 0; i < r->length; i++) {
        if (values[i] > range(&f->map, r->level) || values[i] < -range(&f->map, r->level)) return 7;
        if (r->band != LL && values[i] % (int64_t)f->step) no = 22;
    }
    return no;
}

static inline size_t put_row(const Form *f, const Row *r, const int32_t *values, uint8_t *to)
{
    size_t at = 0;
    for (size_t g = 0; g < r->length; g += GROUP) {
        uint64_t numbers[GROUP];
        size_t n = r->length - g < GROUP ? r->length - g : GROUP;
        for (size_t i = 0; i < n; i++) numbers[i] = folded(values[g + i] / (int64_t)(r->band == LL ? 1 : f->step));
        at += put_group(numbers, n, to + at);
    }
    return at;
}

/* The plane's file, or what stands before the first row that is refused; *no says why. */
static inline size_t form_file(const Form *f, const int32_t *plane, uint8_t *to, uint32_t *no)
{
    size_t at = HEAD;
    form_head(f, to);
    for (size_t i = 0; i < f->count; i++) {
        const Row *r = &f->rows[i];
        const int32_t *values = plane + place(&f->map, r->level, r->band, r->row);
        if ((*no = row_refused(f, r, values))) return at;
        at += put_row(f, r, values, to + at);
    }
    *no = 0;
    put_number(to + at, form_sum(to, at), 4);
    return at + 4;
}

/* ---- byte by byte: where in a file a list of bytes stands, and whether a further one may follow */

typedef struct {
    const Form *form;
    uint8_t bytes[FILE_CAP]; /* those taken */
    size_t length;
    size_t row, done; /* rows that are over; numbers of the row that are */
    size_t group;     /* where the group under way begins in bytes; 0: none */
    int64_t values[MOST_WIDTH];
} Reading;

typedef enum { GOES_ON, ROW_OVER, FILE_OVER, NO_SUCH, TOO_LARGE } Next;

static inline uint64_t digit(const uint8_t *bytes, size_t index, unsigned width)
{
    uint64_t n = 0;
    for (size_t b = 0; b < width; b++) {
        size_t bit = index * width + b;
        n |= (uint64_t)(bytes[bit / 8] >> bit % 8 & 1) << b;
    }
    return n;
}

/* A part whose bytes are all there: its width is the smallest, and no bit stands past its last number. */
static inline int part_stands(const uint8_t *bytes, size_t count, unsigned code)
{
    uint64_t numbers[PART];
    uint8_t again[PART * 4];
    for (size_t i = 0; i < count; i++) numbers[i] = digit(bytes, i, WIDTHS[code]);
    return width_for(most_of(numbers, count)) == code && put_part(numbers, count, code, again) == part_bytes(count, code) &&
           memcmp(again, bytes, part_bytes(count, code)) == 0;
}

static inline int64_t unfolded(uint64_t z)
{
    return z % 2 ? -(int64_t)(z / 2) - 1 : (int64_t)(z / 2);
}

static inline int row_in_range(const Reading *x, const Row *r)
{
    for (size_t i = 0; i < r->length; i++)
        if (x->values[i] > range(&x->form->map, r->level) || x->values[i] < -range(&x->form->map, r->level)) return 0;
    return 1;
}

/* The byte is in x->bytes[x->length - 1] and of a row. */
static inline Next read_in_row(Reading *x)
{
    const Row *r = &x->form->rows[x->row];
    size_t left = r->length - x->done, n = left < GROUP ? left : GROUP, first = n < PART ? n : PART, factor = r->band == LL ? 1 : x->form->step;
    if (!x->group) x->group = x->length - 1;
    const uint8_t *group = x->bytes + x->group;
    size_t there = x->length - x->group - 1;
    unsigned low = group[0] % 16, high = group[0] / 16;
    if (n == first && high) return NO_SUCH;
    size_t lows = part_bytes(first, low), highs = part_bytes(n - first, high);
    if (there == lows && lows && !part_stands(group + 1, first, low)) return NO_SUCH;
    if (there == lows + highs && highs && !part_stands(group + 1 + lows, n - first, high)) return NO_SUCH;
    if (there < lows + highs) return GOES_ON;
    for (size_t i = 0; i < n; i++)
        x->values[x->done + i] = unfolded(i < first ? digit(group + 1, i, WIDTHS[low]) : digit(group + 1 + lows, i - first, WIDTHS[high])) * (int64_t)factor;
    if (left > n) return x->done += n, x->group = 0, GOES_ON;
    return row_in_range(x, r) ? ROW_OVER : TOO_LARGE;
}

/* What this byte is after those taken. One that is no such, or too large, is not taken. */
static inline Next read_byte(Reading *x, uint8_t byte)
{
    uint8_t head[HEAD], sum[4];
    size_t done = x->done, group = x->group;
    Next next;
    x->bytes[x->length++] = byte;
    if (x->length <= HEAD) {
        form_head(x->form, head);
        next = head[x->length - 1] == byte ? GOES_ON : NO_SUCH;
    } else if (x->row < x->form->count) {
        next = read_in_row(x);
        if (next == ROW_OVER) x->row++, x->done = x->group = 0;
    } else {
        size_t at = x->group ? x->length - 1 - x->group : 0; /* `group` is where the checksum begins */
        if (!x->group) x->group = x->length - 1;
        put_number(sum, form_sum(x->bytes, x->group), 4);
        next = sum[at] != byte ? NO_SUCH : at == 3 ? FILE_OVER : GOES_ON;
    }
    if (next == NO_SUCH || next == TOO_LARGE) x->length--, x->done = done, x->group = group;
    return next;
}

#endif
