/* An editor that paints while the disk is slow: one thread offers the rows of a map, the other draws its band rows and writes them to a file, both
   under one lock. While rows wait for the disk the writer takes one row more, so the painter goes on meanwhile.
   From the top of the repository: cc -I include examples/painting.c target/staticlib/libterrain.a -pthread -o target/painting && target/painting */
#include "fractal.h"
#include <pthread.h>
#include <stdio.h>
#include <stdlib.h>
#include <string.h>
#include <terrain.h>

enum { WIDTH = 129, HEIGHT = 200, LEVELS = 3, ALL = WIDTH * HEIGHT };

static uint16_t heights[ALL];
static int32_t disk[ALL], baked[ALL], work[ALL], store[TERRAIN_MAX_STORE_LENGTH];
static uint64_t state[TERRAIN_STATE_LENGTH];
static int finished;
static unsigned long early; /* rows that were painted, whole or in part, while band rows waited */
static pthread_mutex_t lock = PTHREAD_MUTEX_INITIALIZER;
static pthread_cond_t went_on = PTHREAD_COND_INITIALIZER;

static terrain_shape shape(void)
{
    return terrain_shape_of(WIDTH, HEIGHT, LEVELS);
}

static void check(uint32_t number)
{
    if (number == 0) return;
    fprintf(stderr, "painting: %s (%u)\n", terrain_sentence(number), (unsigned)number);
    exit(1);
}

static int rows_wait(void)
{
    uint64_t row[TERRAIN_ROW_LENGTH];
    check(terrain_writer_waits(state, row));
    return row[0] > 0;
}

/* the painter: a row at a time; where the writer takes none, because its spare row is complete, it waits for the disk */
static void *paint(void *unused)
{
    size_t at = 0, taken;
    pthread_mutex_lock(&lock);
    while (at < ALL) {
        int waits = rows_wait();
        check(terrain_writer_offer(state, store, TERRAIN_MAX_STORE_LENGTH, heights + at, WIDTH - at % WIDTH, &taken));
        at += taken;
        early += waits && taken;
        pthread_cond_signal(&went_on);
        if (taken == 0)
            while (rows_wait()) pthread_cond_wait(&went_on, &lock);
    }
    while (rows_wait()) pthread_cond_wait(&went_on, &lock); /* a finish would give 8 */
    check(terrain_writer_finish(state, store, TERRAIN_MAX_STORE_LENGTH));
    finished = 1;
    pthread_cond_signal(&went_on);
    pthread_mutex_unlock(&lock);
    return unused;
}

/* the disk: a row is drawn under the lock and written without it */
static void *write_rows(void *unused)
{
    int32_t values[WIDTH];
    uint64_t row[TERRAIN_ROW_LENGTH];
    size_t start, length;
    for (;;) {
        pthread_mutex_lock(&lock);
        while (!finished && !rows_wait()) pthread_cond_wait(&went_on, &lock);
        check(terrain_writer_draw(state, store, TERRAIN_MAX_STORE_LENGTH, values, WIDTH, row));
        pthread_cond_signal(&went_on);
        pthread_mutex_unlock(&lock);
        if (row[0] == 0) return unused;
        check(terrain_band_row(ALL, shape(), (size_t)row[0], (size_t)row[1], (size_t)row[2], &start, &length));
        memcpy(disk + start, values, length * sizeof *values);
    }
}

int main(void)
{
    pthread_t painter, writer;
    for (uint32_t y = 0; y < HEIGHT; y++)
        for (uint32_t x = 0; x < WIDTH; x++) heights[y * WIDTH + x] = fractal_height(20000 + fractal_ridged(x, y, 32, 64, 7) / 2);
    check(terrain_writer_set_up(state, shape(), store, TERRAIN_MAX_STORE_LENGTH));
    if (pthread_create(&painter, NULL, paint, NULL) || pthread_create(&writer, NULL, write_rows, NULL)) return 1;
    if (pthread_join(painter, NULL) || pthread_join(writer, NULL)) return 1;
    check(terrain_map_forward(heights, ALL, shape(), baked, ALL, work, ALL));
    fprintf(stderr, "%lu offers while band rows waited\n", early);
    printf("two threads: the file is %s\n", memcmp(disk, baked, sizeof disk) ? "ANOTHER" : "the bake's");
    return memcmp(disk, baked, sizeof disk) != 0;
}
