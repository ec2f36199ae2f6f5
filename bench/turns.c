/* One turn of sixteen readers: the proved call beside a plain loop in C and beside C that finds the next bit at once, with all readers marked, with
   one marked, which the search comes to last, and with none. Nanoseconds of processor time a turn, all ways in turn in each round; before any time
   is taken the readers served are compared. */
#include "timing.h"
#include "../include/terrain.h"
#include <stdio.h>
#include <stdlib.h>

enum { CALLS = 200000, WAYS = 3, STATES = 3 };

static uint64_t turns[WAYS][TERRAIN_TURNS_LENGTH];

/* is this a turn-giver? As question 1 */
static int is_giver(const uint64_t t[4]) { return t[0] == 3 && t[1] <= 65535 && t[2] <= 15 && t[3] == 0; }

__attribute__((noinline)) static uint32_t plain(uint64_t t[4], size_t *reader)
{
    if (!is_giver(t)) return 1;
    for (size_t i = 1; i <= 16; i++) {
        size_t n = (t[2] + i) % 16;
        if (t[1] >> n & 1) {
            t[2] = *reader = n;
            return 0;
        }
    }
    *reader = 16;
    return 0;
}

__attribute__((noinline)) static uint32_t by_bits(uint64_t t[4], size_t *reader)
{
    if (!is_giver(t)) return 1;
    uint64_t from = (t[2] + 1) % 16, twice = (t[1] | t[1] << 16) >> from;
    *reader = 16;
    if (twice & 65535) t[2] = *reader = (from + (uint64_t)__builtin_ctzll(twice)) % 16;
    return 0;
}

static uint32_t give(int way, size_t *reader)
{
    return way == 0 ? terrain_turns_give(turns[0], reader) : way == 1 ? plain(turns[1], reader) : by_bits(turns[2], reader);
}

static void mark(int state)
{
    for (int way = 0; way < WAYS; way++) {
        if (terrain_turns_set_up(turns[way])) exit(1);
        for (size_t n = 0; n < TERRAIN_READERS; n++)
            if ((state == 0 || (state == 1 && n == 7)) && terrain_turns_mark(turns[way], n)) exit(1);
    }
}

int main(void)
{
    static const char *const names[WAYS] = { "proved", "plain loop in C", "next bit in C" };
    static const char *const states[STATES] = { "all marked", "one marked", "none marked" };
    static double times[STATES][WAYS][ROUNDS];
    for (int state = 0; state < STATES; state++) {
        mark(state);
        for (int i = 0; i < 100; i++) {
            size_t served[WAYS];
            for (int way = 0; way < WAYS; way++)
                if (give(way, &served[way]) || served[way] != served[0]) {
                    printf("%s: another reader is served\n", names[way]);
                    return 1;
                }
        }
        for (int round = 0; round < ROUNDS; round++)
            for (int way = 0; way < WAYS; way++) {
                size_t reader = 0, sum = 0;
                double from = now();
                for (int i = 0; i < CALLS; i++) {
                    if (give(way, &reader)) return 1;
                    sum += reader;
                }
                times[state][way][round] = (now() - from) / CALLS;
                if (sum == 1) puts("");
            }
    }
    printf("a turn of %d readers, ns, %d rounds of %d turns: median (best)\n%-18s", TERRAIN_READERS, ROUNDS, CALLS, "");
    for (int state = 0; state < STATES; state++) printf("  %-15s", states[state]);
    for (int way = 0; way < WAYS; way++) {
        printf("\n%-18s", names[way]);
        for (int state = 0; state < STATES; state++) {
            in_order(times[state][way]);
            printf("  %6.2f (%5.2f) ", median(times[state][way]), best(times[state][way]));
        }
    }
    printf("\n");
    return 0;
}
