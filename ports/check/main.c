/* check [DIVISOR]: a line a part, with its rounds (divided by DIVISOR) and its hash; then what was answered how often. */
#include "check.h"
#include <stdio.h>
#include <stdlib.h>

int main(int argc, char **argv)
{
    uint32_t by = argc > 1 ? (uint32_t)atoi(argv[1]) : 1;
    for (uint32_t n = 0; n < CHECK_PARTS; n++) {
        uint32_t rounds = check_rounds(n) / by;
        uint64_t hash = check_part(n, rounds);
        printf("%-13s %6u %08lx%08lx\n", check_name(n), (unsigned)rounds, (unsigned long)(hash >> 32), (unsigned long)(hash & 0xffffffffu));
        fflush(stdout);
    }
    printf("streams whose rows are the whole map's, and worked files: %u of %u\n", (unsigned)check_same(), (unsigned)check_streams());
    printf("answers:");
    for (uint32_t n = 0; n < 24; n++)
        if (check_said(n)) printf(" %u:%u", (unsigned)n, (unsigned)check_said(n));
    printf("\n");
    return check_same() != check_streams();
}
