/* Leaks by a mask: the variable that keeps the old mask is used for something else, too. */
#include "service.h"

ENTRY uint32_t unlock(uint32_t guess, struct answer *answer)
{
    if (!is_callers(answer))
        return 0;
    uint32_t value = basepri();
    set_basepri(0x40); /* from here on nobody else looks at the secret */
    value = guess ^ secret;
    uint32_t is_right = value == 0;
    answer->is_right = is_right;
    set_basepri(value); /* meant to be the old one */
    return is_right;
}
