/* One archive for every x86-64 Linux machine: each call of include/terrain.h is an indirect function, bound when the program is loaded to the module
   compiled for x86-64 or to the same module compiled for x86-64-v3 (AVX2). No variable, no test at run time. Needs glibc. */
#include <stdint.h>

static void cpuid(uint32_t leaf, uint32_t r[4])
{
    __asm__("cpuid" : "=a"(r[0]), "=b"(r[1]), "=c"(r[2]), "=d"(r[3]) : "a"(leaf), "c"(0));
}

static int all_of(uint32_t word, uint32_t bits) { return (word & bits) == bits; }

/* whether the system saves the wide registers */
static int saves_wide(void)
{
    uint32_t low, high;
    __asm__("xgetbv" : "=a"(low), "=d"(high) : "c"(0));
    return all_of(low, 6);
}

/* everything that x86-64-v3 names */
static int is_v3(void)
{
    uint32_t r[4];
    cpuid(0, r);
    if (r[0] < 7) return 0;
    cpuid(1, r);
    /* SSE3, SSSE3, FMA, CX16, SSE4.1, SSE4.2, MOVBE, POPCNT, OSXSAVE, AVX, F16C */
    if (!all_of(r[2], 1u << 0 | 1u << 9 | 1u << 12 | 1u << 13 | 1u << 19 | 1u << 20 | 1u << 22 | 1u << 23 | 1u << 27 | 1u << 28 | 1u << 29)) return 0;
    if (!saves_wide()) return 0;
    cpuid(7, r);
    if (!all_of(r[1], 1u << 3 | 1u << 5 | 1u << 8)) return 0; /* BMI1, AVX2, BMI2 */
    cpuid(0x80000000u, r);
    if (r[0] < 0x80000001u) return 0;
    cpuid(0x80000001u, r);
    return all_of(r[2], 1u << 0 | 1u << 5); /* LAHF, LZCNT */
}

typedef void call(void);
#define PICK(name) \
    extern call terrain_v1_##name, terrain_v3_##name; \
    __attribute__((used)) static call *pick_##name(void) { return is_v3() ? terrain_v3_##name : terrain_v1_##name; } \
    call terrain_##name __attribute__((ifunc("pick_" #name)));
#include "dispatch_calls.h" /* made by ports/calls */
