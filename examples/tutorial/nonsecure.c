/* The Non-secure side: it calls both functions, also with what isn't its own. */
#include <stdint.h>

#include "gateway.h"

extern uint32_t stack_top[];

static const uint32_t words[3] = {1, 20, 300};

static volatile uint32_t answers[3];

static _Noreturn void reset(void)
{
    answers[0] = is_right(1);
    answers[1] = total(words, 3);
    answers[2] = total((const uint32_t *)0x10000000, 128);
    for (;;)
        ;
}

__attribute__((section(".vectors"), used))
static const void *const vectors[] = {stack_top, reset};
