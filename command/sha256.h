/* SHA-256 (FIPS 180-4). */
#ifndef SHA256_H
#define SHA256_H

#include <stddef.h>
#include <stdint.h>

typedef struct {
    uint32_t hash[8];
    uint64_t length; /* bytes so far */
    uint8_t block[64];
} Sha256;

void sha256_begin(Sha256 *s);
void sha256_take(Sha256 *s, const void *bytes, size_t count);

/* The sum as 64 hexadecimal digits. */
void sha256_end(Sha256 *s, char text[65]);

#endif
