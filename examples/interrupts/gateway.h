/* What Secure code offers to Non-secure code. */
#ifndef GATEWAY_H
#define GATEWAY_H

#include <stdint.h>

/* How often the timer of the Secure side has come. */
uint32_t uptime(void);

/* A number that depends on `length` bytes from `bytes` on and on a key that Non-secure code doesn't know; 0 where
   Non-secure code may not read all of the bytes. */
uint32_t seal(const uint8_t *bytes, uint32_t length);

#endif
