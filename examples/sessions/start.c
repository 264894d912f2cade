#include <stdint.h>

#include "sessions.h"

/* The places that the linker script names. */
extern uint32_t stack_top[];
extern const uint32_t nonsecure_vectors[];

static volatile uint32_t *const systick = (uint32_t *)0xe000e010; /* CSR, RVR, CVR */

/* A return that takes from an empty stack finds these. */
static const uint32_t seal[2] = {0xfef5eda5, 0xfef5eda5};

_Noreturn void hand_over(const uint32_t *seal, uint32_t stack, uint32_t entry);

static _Noreturn void reset(void)
{
    systick[1] = 99999; /* behind the steps of each run here */
    systick[2] = 0;
    systick[0] = 3;
    *(volatile uint32_t *)0xe000e380 = 1; /* NVIC_ITNS0: interrupt 0 is Non-secure */
    *(volatile uint32_t *)0xe000e100 = 2; /* NVIC_ISER0: interrupt 1 is enabled, and Secure */
    hand_over(seal, nonsecure_vectors[0], nonsecure_vectors[1]);
}

static void stop(void)
{
    for (;;)
        ;
}

/* Interrupt 1 is there for the sweep: with it the timer's handler comes at any step. */
__attribute__((section(".vectors"), used))
static const void *const vectors[] = {
    stack_top, reset, stop, stop, stop, stop, stop, stop, [15] = sessions_tick, [17] = sessions_tick,
};
