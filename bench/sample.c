/* A plug-in to copy from: the table's row-wise C once more, out of a shared object. In the repository's folder:

   mkdir -p target/bench && cc -std=c11 -O3 -shared -fPIC bench/sample.c bench/plain.c -o target/bench/sample.so && bench/run target/bench/sample.so */
#include "maps.h"
#include "plugin.h"

static int forward(const uint16_t *heights, size_t width, size_t height, size_t levels, int32_t *plane, int32_t *work)
{
    if (levels != LEVELS) return 1;
    plain_forward(heights, width, height, plane, work);
    return 0;
}

static int backward(const int32_t *plane, size_t width, size_t height, size_t levels, uint16_t *heights, int32_t *work)
{
    if (levels != LEVELS) return 1;
    plain_backward(plane, width, height, heights, work);
    return 0;
}

const BenchPlugin bench_plugin = { BENCH_PLUGIN_VERSION, "sample: row-wise C", forward, backward };
