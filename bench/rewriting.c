/* A plain rewriting in C, the peer of the program `rewrite` in the benchmark: a byte at a time through stdio's buffers, without locks. It asks what
   `rewrite` asks of the samples, and trusts the header. */
#define _POSIX_C_SOURCE 200809L
#include <stdio.h>

int main(void)
{
    unsigned width, height, largest;
    if (scanf("P5 %u %u %u", &width, &height, &largest) != 3 || getchar_unlocked() == EOF) return 1;
    printf("P5\n%u %u\n65535\n", width, height);
    for (unsigned long n = (unsigned long)width * height; n; n--) {
        int high = largest > 255 ? getchar_unlocked() : 0, low = getchar_unlocked();
        if (high == EOF || low == EOF || (unsigned)(high << 8 | low) > largest) return 1;
        putchar_unlocked(high);
        putchar_unlocked(low);
    }
    return getchar_unlocked() != EOF || fflush(stdout);
}
