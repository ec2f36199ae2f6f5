/* Two artists on one map: two threads paint in halves of their own, and one lock goes around "set the heights, mend the plane". Whatever the
   order of their strokes, the plane is the bake's.
   From the top of the repository: cc -Iinclude -pthread examples/artists.c target/staticlib/libterrain.a -o target/artists && target/artists */
#include "terrain.h"
#include <pthread.h>
#include <stdio.h>
#include <string.h>

enum { WIDTH = 513, HEIGHT = 257, LEVELS = 5, PLACES = WIDTH * HEIGHT, STROKES = 200 };

static uint16_t heights[PLACES];
static int32_t plane[PLACES], baked[PLACES], work[PLACES];
static pthread_mutex_t lock = PTHREAD_MUTEX_INITIALIZER;

struct artist {
    size_t from, to; /* columns of their own */
    uint32_t random, answer;
};

static size_t below(struct artist *a, size_t n)
{
    a->random = a->random * 1664525u + 1013904223u;
    return (a->random >> 8) % n;
}

static void *paint(void *argument)
{
    struct artist *a = argument;
    for (int stroke = 0; a->answer == 0 && stroke < STROKES; stroke++) {
        terrain_rectangle r;
        r.left = a->from + below(a, a->to - a->from);
        r.top = below(a, HEIGHT);
        r.width = 1 + below(a, a->to - r.left < 40 ? a->to - r.left : 40);
        r.height = 1 + below(a, HEIGHT - r.top < 40 ? HEIGHT - r.top : 40);
        pthread_mutex_lock(&lock);
        for (size_t row = r.top; row < r.top + r.height; row++)
            for (size_t column = r.left; column < r.left + r.width; column++) heights[row * WIDTH + column] = (uint16_t)below(a, 65536);
        a->answer = terrain_map_mend(heights, PLACES, WIDTH, HEIGHT, LEVELS, r, plane, PLACES, work, PLACES);
        pthread_mutex_unlock(&lock);
    }
    return NULL;
}

int main(void)
{
    struct artist one = {0, WIDTH / 2, 1, 0}, other = {WIDTH / 2, WIDTH, 2, 0};
    terrain_shape shape = terrain_shape_of(WIDTH, HEIGHT, LEVELS);
    pthread_t thread;
    uint32_t answer = terrain_map_forward(heights, PLACES, shape, plane, PLACES, work, PLACES);
    if (answer == 0 && pthread_create(&thread, NULL, paint, &one) == 0) {
        paint(&other);
        pthread_join(thread, NULL);
        answer = one.answer ? one.answer : other.answer;
    }
    if (answer == 0) answer = terrain_map_forward(heights, PLACES, shape, baked, PLACES, work, PLACES);
    if (answer != 0) {
        fprintf(stderr, "refused: %s\n", terrain_sentence(answer));
        return 1;
    }
    puts(memcmp(plane, baked, sizeof plane) == 0 ? "two artists: the plane is the bake's" : "the planes differ");
    return 0;
}
