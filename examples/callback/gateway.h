/* What Secure code offers to Non-secure code. */
#ifndef GATEWAY_H
#define GATEWAY_H

#include <stdint.h>

/* Whether `guess`, a function of Non-secure code, gives the number that Secure code has in mind. It is told how the
   number begins: its upper 8 bits. */
uint32_t is_found(uint32_t (*guess)(uint32_t beginning));

#endif
