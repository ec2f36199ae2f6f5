/* A height map to a small file: its coefficients in the reader's order, packed by zstd, and back. With a STEP above 1, up to 64, they are rounded first: the
   file is smaller, and the heights are off by no more than the library promises.
   apt-get install libzstd-dev, then from the top of the repository:
   cc -I include examples/compressed.c target/staticlib/libterrain.a -lzstd -o target/compressed && target/compressed examples/hill.pgm 3 target/hill.zst 19 */
#include "compressed.h"
#include "pgm.h"

static long size_of(const char *path)
{
    FILE *file = fopen(path, "rb");
    long size = file && fseek(file, 0, SEEK_END) == 0 ? ftell(file) : -1;
    if (file) fclose(file);
    return size;
}

static int no_map(const char *what, uint32_t no)
{
    fprintf(stderr, "%s: %s (%u)\n", what, sentence(no), (unsigned)no);
    return 1;
}

/* `compressed OUT` alone loads a file: whether it is whole. */
static int load(const char *path)
{
    size_t width, height;
    uint16_t *heights;
    uint32_t no = load_compressed(path, &width, &height, &heights);
    if (no) return no_map(path, no);
    printf("loaded: %lu x %lu heights\n", (unsigned long)width, (unsigned long)height);
    free(heights);
    return 0;
}

/* What came back beside the map: identical, or off by what was promised at most. 0: it is neither. */
static int compare(const Pgm *map, const uint16_t *again, size_t levels, size_t step)
{
    size_t n = map->width * map->height, most = 0, sum = 0, promised = 0;
    for (size_t i = 0; i < n; i++) {
        size_t off = (size_t)abs((int)again[i] - (int)map->heights[i]);
        if (off > most) most = off;
        sum += off;
    }
    if (terrain_error_bound(levels, step, &promised) || most > promised) return printf("loaded: DIFFERENT\n"), 0;
    if (step == 1) printf("loaded: identical\n");
    else printf("loaded: off by at most %lu, promised %lu, on average %.2f\n", (unsigned long)most, (unsigned long)promised, (double)sum / (double)n);
    return 1;
}

int main(int argc, char **argv)
{
    Pgm map;
    size_t width, height, levels, step;
    uint16_t *again;
    uint32_t no;
    int good;
    if (argc != 2 && argc != 5 && argc != 6) {
        fprintf(stderr, "usage: compressed MAP.pgm LEVELS OUT EFFORT [STEP], or compressed OUT\n");
        return 2;
    }
    if (argc == 2) return load(argv[1]);
    const char *wrong = pgm_read(argv[1], &map);
    if (wrong) {
        fprintf(stderr, "%s: %s\n", argv[1], wrong);
        return 1;
    }
    levels = (size_t)atol(argv[2]);
    step = argc == 6 ? (size_t)atol(argv[5]) : 1;
    no = write_compressed(argv[3], map.heights, map.width, map.height, levels, step, atoi(argv[4]));
    if (no) return no_map("not written", no);
    printf("written: %ld bytes for %lu heights\n", size_of(argv[3]), (unsigned long)(map.width * map.height));

    no = load_compressed(argv[3], &width, &height, &again);
    if (no) return no_map("not loaded", no);
    good = width == map.width && height == map.height && compare(&map, again, levels, step);
    free(again);
    free(map.heights);
    return good ? 0 : 1;
}
