/* A picture in 16-bit greys: squares for numbers, lines, and names in a small type. */
#ifndef CANVAS_H
#define CANVAS_H

#include <stdint.h>
#include <stdlib.h>
#include <string.h>

enum { BLACK = 0, GREY = 32768, WHITE = 65535 };

typedef struct {
    size_t width, height;
    uint16_t *greys;
} Canvas;

/* The pixels of a box that are on the canvas. */
static inline void canvas_box(Canvas *c, size_t left, size_t top, size_t width, size_t height, uint16_t grey)
{
    for (size_t y = top; y < top + height && y < c->height; y++)
        for (size_t x = left; x < left + width && x < c->width; x++) c->greys[y * c->width + x] = grey;
}

/* Letters of five columns and seven rows, the row's bits from left to right. */
enum { LETTER_WIDTH = 5, LETTER_HEIGHT = 7, LETTER_STEP = 6 };

static inline const uint8_t *canvas_letter(char c)
{
    static const char known[] = "LH12345";
    static const uint8_t letters[][LETTER_HEIGHT] = {
        {16, 16, 16, 16, 16, 16, 31}, {17, 17, 17, 31, 17, 17, 17}, {4, 12, 4, 4, 4, 4, 14}, {14, 17, 1, 2, 4, 8, 31},
        {31, 2, 4, 2, 1, 17, 14},     {2, 6, 10, 18, 31, 2, 2},     {31, 16, 30, 1, 1, 17, 14},
    };
    const char *at = strchr(known, c);
    return at && *at ? letters[at - known] : letters[0];
}

/* A name in white on black, each dot of its type `dot` pixels wide. Returns whether the box has room for it, with a rim of one dot. */
static inline int canvas_name(Canvas *c, const char *name, size_t left, size_t top, size_t width, size_t height, size_t dot)
{
    size_t wide = (strlen(name) * LETTER_STEP + 1) * dot, high = (LETTER_HEIGHT + 2) * dot;
    if (wide > width || high > height) return 0;
    canvas_box(c, left, top, wide, high, BLACK);
    for (size_t i = 0; name[i]; i++)
        for (size_t y = 0; y < LETTER_HEIGHT; y++)
            for (size_t x = 0; x < LETTER_WIDTH; x++)
                if (canvas_letter(name[i])[y] >> (LETTER_WIDTH - 1 - x) & 1)
                    canvas_box(c, left + (i * LETTER_STEP + x + 1) * dot, top + (y + 1) * dot, dot, dot, WHITE);
    return 1;
}

#endif
