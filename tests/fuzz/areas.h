/* Areas that are lent to a call: each ends, or begins, at a page that nobody may touch, and has guard words on its other side. The proved
 * archive is not instrumented, so this and not a sanitizer is what sees it read or write outside of what it was lent. (Its memcpy and
 * memset go through the sanitizer's: the guard words are poisoned while a call runs.) */
#ifndef AREAS_H
#define AREAS_H

#include <sanitizer/asan_interface.h>
#include <stdio.h>
#include <stdlib.h>
#include <string.h>
#include <sys/mman.h>

enum { PAGE = 4096, ROOM = 32 * PAGE, GUARD = 64, MARK = 0xa5 };

#define HOLDS(condition)                                                        \
    do {                                                                        \
        if (!(condition)) {                                                     \
            fprintf(stderr, "%s:%d: not so: %s\n", __FILE__, __LINE__, #condition); \
            abort();                                                            \
        }                                                                       \
    } while (0)

typedef struct {
    unsigned char *room, *at; /* ROOM bytes between two forbidden pages; what is lent of them */
    size_t bytes;
} Area;

/* `bytes` bytes with this content (NULL: marks), against the page after the room or the one before it. */
static inline void *area_lend(Area *area, const void *content, size_t bytes, int at_end)
{
    HOLDS(bytes <= ROOM - GUARD);
    if (!area->room) {
        unsigned char *all = mmap(NULL, ROOM + 2 * PAGE, PROT_NONE, MAP_PRIVATE | MAP_ANONYMOUS, -1, 0);
        HOLDS(all != MAP_FAILED && mprotect(all + PAGE, ROOM, PROT_READ | PROT_WRITE) == 0);
        area->room = all + PAGE;
    }
    unsigned char *guard = at_end ? area->room + ROOM - bytes - GUARD : area->room + bytes;
    area->at = at_end ? guard + GUARD : area->room;
    area->bytes = bytes;
    memset(guard, MARK, GUARD);
    if (content && bytes) memcpy(area->at, content, bytes);
    if (!content) memset(area->at, MARK, bytes);
    ASAN_POISON_MEMORY_REGION(guard, GUARD);
    return area->at;
}

/* After the call: the guard words stand. */
static inline void area_back(Area *area)
{
    unsigned char *guard = area->at != area->room ? area->at - GUARD : area->at + area->bytes;
    ASAN_UNPOISON_MEMORY_REGION(guard, GUARD);
    for (int i = 0; i < GUARD; i++) HOLDS(guard[i] == MARK);
}

/* The bytes from `from` on are still the marks that area_lend put there. */
static inline int area_unset(const Area *area, size_t from)
{
    for (size_t i = from; i < area->bytes; i++)
        if (area->at[i] != MARK) return 0;
    return 1;
}

static inline int area_is(const Area *area, const void *content)
{
    return area->bytes == 0 || memcmp(area->at, content, area->bytes) == 0;
}

#endif
