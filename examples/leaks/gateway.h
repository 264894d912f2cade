/* What Secure code offers to Non-secure code. */
#ifndef GATEWAY_H
#define GATEWAY_H

#include <stdint.h>

struct answer {
    uint32_t is_right;
    uint32_t reserved;
};

/* Whether `guess` is the secret number: 1 or 0. `answer` gets it, too, if it is wholly the caller's memory. */
uint32_t unlock(uint32_t guess, struct answer *answer);

#endif
