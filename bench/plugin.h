/* Another library in the table of the 5/3: `bench/run FILE.so ...`.
 *
 * A plug-in is a shared object with one symbol, `bench_plugin`. Each of its two calls does a whole map at once, as terrain_map_forward and
 * terrain_map_backward do: `heights`, `plane` and `work` have width * height numbers each, `work` may be used or not. A call answers 0, or
 * another number if it does not do such a map; it is called with the squares and the levels of the table only. Either call may be NULL.
 *
 * Before any time is taken its plane is compared with the proved one, and its heights with the map. What is not equal is still timed, for
 * another library may keep its bands elsewhere or lift otherwise, and the table says "differs" beside it. Its backward call is given the
 * proved plane if its forward call made that, and else the plane that its own forward call made.
 *
 * bench/sample.c is a plug-in. */
#ifndef BENCH_PLUGIN_H
#define BENCH_PLUGIN_H
#include <stddef.h>
#include <stdint.h>

enum { BENCH_PLUGIN_VERSION = 1 };

typedef struct {
    int version;      /* BENCH_PLUGIN_VERSION */
    const char *name; /* in the table; at most 28 letters are shown */
    int (*forward)(const uint16_t *heights, size_t width, size_t height, size_t levels, int32_t *plane, int32_t *work);
    int (*backward)(const int32_t *plane, size_t width, size_t height, size_t levels, uint16_t *heights, int32_t *work);
} BenchPlugin;

/* The plug-in defines it. */
extern const BenchPlugin bench_plugin;

#endif
