/* Leaks by time: the comparison ends at the first byte that is wrong. */
#include "service.h"

ENTRY uint32_t unlock(uint32_t guess, struct answer *answer)
{
    if (!is_callers(answer))
        return 0;
    uint32_t number = secret, right = 0;
    while (right < 4 && (guess & 0xff) == (number & 0xff)) {
        guess >>= 8;
        number >>= 8;
        right++;
    }
    answer->is_right = right == 4;
    return right == 4;
}
