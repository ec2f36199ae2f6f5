/* Lines by both filters and both ways, the smooth profile, the bytes of a picture. */
#include "common.h"

enum { MOST_WIDTH = TERRAIN_MAX_WIDTH, SURPLUS = 8 };
static float smooth[MOST_WIDTH + SURPLUS];
static uint8_t bytes[4096];

void lines(void)
{
    uint32_t n = below(8) ? below(70) : below(3000), room = below(10) ? n + below(3) : below(n + 1), which = below(4);
    size_t start = (size_t)(below(2) ? below(100) : any_number());
    for (uint32_t i = 0; i < n; i++) plane[i] = any_word();
    for (uint32_t i = 0; i < n + 4; i++) out[i] = (int32_t)i;
    switch (which) {
    case 0: say(terrain_line_forward(plane, n, start, out, room)); break;
    case 1: say(terrain_line_backward(plane, n, start, out, room)); break;
    case 2: say(terrain_ccsds_line_forward(plane, n, start, out, room)); break;
    default: say(terrain_ccsds_line_backward(plane, n, start, out, room)); break;
    }
    add32(out, n + 4);
}

void profiles(void)
{
    uint32_t n = below(4) ? below(80) : below(MOST_WIDTH + 3), room = below(12) ? n + below(3) : below(n + 1);
    if (room > MOST_WIDTH + SURPLUS) room = MOST_WIDTH + SURPLUS;
    fill(heights, n);
    uint32_t *bits = (uint32_t *)(void *)smooth; /* compiled with -fno-strict-aliasing */
    for (uint32_t i = 0; i < MOST_WIDTH + SURPLUS; i++) bits[i] = i;
    say(terrain_profile(heights, n, smooth, room));
    uint32_t shown = n < MOST_WIDTH ? n + SURPLUS : MOST_WIDTH + SURPLUS;
    for (uint32_t i = 0; i < shown; i++) add(bits[i]);
}

void pictures(void)
{
    size_t written = 77;
    for (uint32_t i = 0; i < 256; i++) bytes[i] = (uint8_t)i;
    /* each number is drawn in a statement of its own: C leaves the order of a call's arguments open */
    uint64_t any_height = any_number() >> (wide ? 30 : 32);
    size_t width = below(2100);
    size_t height = below(3) ? below(70000) : (size_t)any_height;
    uint32_t from = below(30), room = below(40);
    say(terrain_picture_head(width, height, from, bytes, room, &written));
    add((uint64_t)written);
    for (uint32_t i = 0; i < 64; i++) add(bytes[i]);
    uint32_t n = below(60);
    fill(heights, n);
    from = below(140);
    room = below(130);
    add((uint64_t)terrain_picture_row(heights, n, from, bytes, room));
    for (uint32_t i = 0; i < 160; i++) add(bytes[i]);
}
