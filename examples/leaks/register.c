/* Leaks by a register: the gateway's function is written by hand, in register.s, and calls this one. */
#include "service.h"

/* The number a second time, inverted: a cell that lost a bit is found out. */
static const volatile uint32_t inverse = ~SECRET;

uint32_t unlock_inside(uint32_t guess, struct answer *answer)
{
    if (!is_callers(answer))
        return 0;
    uint32_t difference = (guess ^ secret) | (~guess ^ inverse);
    answer->is_right = difference == 0;
    return difference == 0;
}
