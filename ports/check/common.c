#include "common.h"
#include "check.h"

uint16_t heights[ROOM], heights_back[ROOM];
int32_t plane[ROOM], work[ROOM], out[ROOM], store[TERRAIN_MAX_STORE_LENGTH + 64];
int wide;
static uint64_t seed, hash, said[ANSWERS], same, all;

uint64_t any_number(void)
{
    uint64_t z = seed += 0x9e3779b97f4a7c15u;
    z = (z ^ (z >> 30)) * 0xbf58476d1ce4e5b9u;
    z = (z ^ (z >> 27)) * 0x94d049bb133111ebu;
    return z ^ (z >> 31);
}

uint32_t below(uint32_t n) { return (uint32_t)((any_number() >> 32) * n >> 32); }

void add(uint64_t value)
{
    hash = (hash ^ value) * 0x100000001b3u;
    hash ^= hash >> 29;
}

void say(uint32_t number)
{
    said[number < ANSWERS ? number : ANSWERS - 1]++;
    add(number);
}

void count(uint64_t equal)
{
    same += equal, all++;
    add(equal);
}

void add16(const uint16_t *area, size_t n)
{
    for (size_t i = 0; i < n; i++) add(area[i]);
}

void add32(const int32_t *area, size_t n)
{
    for (size_t i = 0; i < n; i++) add((uint32_t)area[i]);
}

void add64(const uint64_t *area, size_t n)
{
    for (size_t i = 0; i < n; i++) add(area[i]);
}

int32_t any_word(void)
{
    switch (below(4)) {
    case 0: return (int32_t)(uint32_t)any_number();
    case 1: return (int32_t)below(65536);
    case 2: return (int32_t)(0x80000000u - below(3));
    default: return (int32_t)below(7) - 3;
    }
}

void fill(uint16_t *area, size_t n)
{
    uint32_t kind = below(5), base = below(65536);
    for (size_t i = 0; i < n; i++) {
        uint32_t height = base;
        if (kind == 1) height = below(65536);
        if (kind == 2) height = below(2) ? 65535 : 0;
        if (kind == 3) height = base + 7 * (uint32_t)i;
        if (kind == 4) height = (base & 0xff00) + below(32);
        area[i] = (uint16_t)height;
    }
}

terrain_shape any_shape(void)
{
    terrain_shape s = {0, 0, 0, 0, 0, 0};
    s.width = below(6) ? 1 + below(60) : 1 + below(2049);
    s.height = 1 + below((uint32_t)(ROOM / s.width > 70 ? 70 : ROOM / s.width));
    s.levels = 1 + below(5);
    s.x = (uint16_t)(below(3) ? 0 : below(65536));
    s.y = (uint16_t)(below(3) ? 0 : below(65536));
    s.filter = below(2);
    if (!below(20)) s.levels = (size_t)any_number();
    if (!below(20)) s.filter = (uint32_t)any_number();
    if (!below(20)) s.width = below(3) ? below(2100) : (size_t)any_number();
    if (!below(20)) s.height = below(3) ? 0 : (size_t)(wide ? any_number() : any_number() >> 32);
    return s;
}

void spoil(uint32_t among)
{
    uint32_t at = below(among), shift = below(30), by = (uint32_t)any_number() >> shift;
    if (below(2)) by = below(5) - 2u;
    plane[at] = (int32_t)((uint32_t)plane[at] + by);
}

void scribble(uint64_t *state, size_t state_len, uint32_t store_len)
{
    int in_store = store_len && below(2);
    uint32_t at = below(in_store ? store_len : (uint32_t)state_len);
    uint64_t number = below(2) ? below(70) : any_number();
    if (in_store) store[at] = any_word();
    else state[at] = number;
}

typedef struct {
    const char *name;
    void (*round)(void);
    uint32_t rounds;
} part;

static const part parts[CHECK_PARTS] = {
    {"lines", lines, 12000},
    {"profiles", profiles, 5000},
    {"pictures", pictures, 12000},
    {"maps", maps, 3000},
    {"streams", streams, 1500},
    {"scribbled", scribbled_streams, 1500},
    {"limits", limits, 300},
    {"turns", turn_givers, 2000},
    {"nearest", nearest_changes, 2000},
    {"strokes", strokes, 2000},
    {"roundings", roundings, 2000},
    {"runs", runs, 1000},
    {"files", files, 1500},
    {"bad files", scribbled_files, 1000},
    {"wide maps", maps, 1500},
    {"wide pictures", pictures, 3000},
};

const char *check_name(uint32_t n) { return parts[n].name; }
uint32_t check_rounds(uint32_t n) { return parts[n].rounds; }
uint64_t check_same(void) { return same; }
uint64_t check_streams(void) { return all; }
uint64_t check_said(uint32_t number) { return number < ANSWERS ? said[number] : 0; }

uint64_t check_part(uint32_t n, uint32_t rounds)
{
    wide = n >= CHECK_PARTS - 2;
    seed = 1000 + n;
    hash = 0xcbf29ce484222325u;
    add(terrain_version());
    for (uint32_t i = 0; i < rounds; i++) parts[n].round();
    return hash;
}
