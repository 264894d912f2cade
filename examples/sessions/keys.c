#include "sessions.h"

const uint32_t keys[KEYS][4] = {
    {0x00c0ffee, 0x00c0ffef, 0x02415fca, 0x5aa5a5b4},
    {SECOND, SECOND + 1, 3 * SECOND, ~SECOND},
};

const uint32_t most_ticks = MOST_TICKS;
