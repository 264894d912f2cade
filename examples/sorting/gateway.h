/* What Secure code offers to Non-secure code. */
#ifndef GATEWAY_H
#define GATEWAY_H

#include <stdint.h>

/* What `verify` answers. */
enum {
    VERIFY_SAME = 1,    /* the bytes have this CRC */
    VERIFY_OTHER = 2,   /* they have another one */
    VERIFY_REFUSED = 3, /* they aren't wholly in memory that Non-secure code may read; nothing was read */
};

/* Whether the CRC-32 of `length` bytes from `bytes` on is `crc`, as Secure code computes it. */
uint32_t verify(const uint8_t *bytes, uint32_t length, uint32_t crc);

#endif
