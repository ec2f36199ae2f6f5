/* The check as main.c and a JavaScript host run it: a part is so many rounds, and its hash is the same on every machine, or a build is wrong. */
#include <stdint.h>
enum { CHECK_PARTS = 16 /* the last two need a size_t of 64 bits */ };
const char *check_name(uint32_t part);
uint32_t check_rounds(uint32_t part);
uint64_t check_part(uint32_t part, uint32_t rounds);
/* how often a call answered that number */
uint64_t check_said(uint32_t number);
/* of the streams that nobody scribbled in and the worked files: those whose rows were the whole map's, and whose bytes were docs/FORMAT.md's; and all */
uint64_t check_same(void);
uint64_t check_streams(void);
