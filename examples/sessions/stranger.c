/* The Non-secure side: it has had a session, and none any more, so each call is to be refused. */
#include "gateway.h"

extern uint32_t stack_top[];

static const uint32_t words[2] = {0x20736e61, 0x2e303031};

static volatile uint32_t answers[6];
static uint32_t tag[2];

static _Noreturn void reset(void)
{
    uint32_t handle = session_open(1);
    session_close(handle);
    answers[0] = session_tag(handle, words, tag);
    answers[1] = session_tag(handle + 1, words, tag);
    answers[2] = session_tag(0, words, tag);
    answers[3] = session_tag(-1, words, tag);
    answers[4] = session_close(handle);
    answers[5] = session_open(2);
    for (;;)
        ;
}

__attribute__((section(".vectors"), used))
static const void *const vectors[] = {stack_top, reset};
