/* The check of the C interface (calls.c, or files.c) without a fuzzer: random lists of calls by a seed, so that any archive goes through the same ones.
 *     random SEED COUNT     its last line is 'COUNT lists of calls passed'; a list that does not pass aborts */
#include <inttypes.h>
#include <stdint.h>
#include <stdio.h>
#include <stdlib.h>

int LLVMFuzzerTestOneInput(const uint8_t *data, size_t size);

static uint64_t state;

/* splitmix64 */
static uint64_t next(void)
{
    uint64_t z = state += 0x9e3779b97f4a7c15u;
    z = (z ^ z >> 30) * 0xbf58476d1ce4e5b9u;
    z = (z ^ z >> 27) * 0x94d049bb133111ebu;
    return z ^ z >> 31;
}

int main(int argc, char **argv)
{
    static uint8_t data[2048];
    uint64_t count = argc == 3 ? strtoull(argv[2], NULL, 10) : 0;
    if (count == 0) {
        fprintf(stderr, "usage: random SEED COUNT\n");
        return 2;
    }
    state = strtoull(argv[1], NULL, 10);
    for (uint64_t i = 0; i < count; i++) {
        size_t size = (size_t)(next() % (sizeof data + 1));
        for (size_t at = 0; at < size; at++) data[at] = (uint8_t)next();
        LLVMFuzzerTestOneInput(data, size);
    }
    printf("%" PRIu64 " lists of calls passed\n", count);
    return 0;
}
