/* Leaks by none of these: one way for all guesses, GCC's own entry, field by field, and the mask in its own variable. */
#include "service.h"

ENTRY uint32_t unlock(uint32_t guess, struct answer *answer)
{
    if (!is_callers(answer))
        return 0;
    uint32_t mask = basepri();
    set_basepri(0x40);
    uint32_t difference = guess ^ secret;
    set_basepri(mask);
    answer->is_right = difference == 0;
    return difference == 0;
}
