/* Leaks by memory: the struct is copied whole, with what the comparison kept in it. */
#include "service.h"

ENTRY uint32_t unlock(uint32_t guess, struct answer *answer)
{
    if (!is_callers(answer))
        return 0;
    struct answer found;
    found.reserved = guess ^ secret;
    found.is_right = found.reserved == 0;
    *answer = found;
    return found.is_right;
}
