/* The Non-secure side: it opens a session with the first key, and has a tag made. Its handler ends that session, and opens
   one with the second key. */
#include "gateway.h"

extern uint32_t stack_top[];

static const uint32_t words[2] = {0x20736e61, 0x2e303031};

static volatile uint32_t first, second, is_made;
static uint32_t tag[2];

static void handler(void)
{
    session_close(first);
    second = session_open(1);
}

static _Noreturn void reset(void)
{
    *(volatile uint32_t *)0xe000e100 = 1; /* NVIC_ISER0: interrupt 0 is enabled */
    first = session_open(0);
    is_made = session_tag(first, words, tag);
    for (;;)
        ;
}

__attribute__((section(".vectors"), used))
static const void *const vectors[] = {stack_top, reset, [16] = handler};
