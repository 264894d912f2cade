/* What the sources of the Secure side share. */
#include <stdint.h>

#define KEYS 2

/* What differs from image to image stands in a source of its own, so that all else is the same. */
extern const uint32_t keys[KEYS][4];
extern const uint32_t most_ticks; /* that a session lives */

void sessions_tick(void);
