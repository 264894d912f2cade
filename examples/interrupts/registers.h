/* The system registers that both sides use. Secure code has those of the Non-secure side at OF_NONSECURE(..). */
#ifndef REGISTERS_H
#define REGISTERS_H

#include <stdint.h>

#define REGISTER(address) (*(volatile uint32_t *)(address))
#define OF_NONSECURE(address) ((address) + 0x20000)

#define SYST_CSR 0xe000e010
#define SYST_RVR 0xe000e014
#define SYST_CVR 0xe000e018
#define NVIC_ISER0 0xe000e100
#define NVIC_ITNS0 0xe000e380
#define NVIC_IPR0 0xe000e400
#define NVIC_IPR1 0xe000e404
#define ICSR 0xe000ed04
#define VTOR 0xe000ed08
#define AIRCR 0xe000ed0c
#define SHPR2 0xe000ed1c
#define SHPR3 0xe000ed20
#define SHCSR 0xe000ed24
#define SAU_CTRL 0xe000edd0
#define SAU_RNR 0xe000edd8
#define SAU_RBAR 0xe000eddc
#define SAU_RLAR 0xe000ede0
#define SFSR 0xe000ede4

/* The timer's exception comes every `counts` counts. */
static inline void start_timer(uint32_t counts)
{
    REGISTER(SYST_RVR) = counts - 1;
    REGISTER(SYST_CVR) = 0;
    REGISTER(SYST_CSR) = 7; /* CLKSOURCE, TICKINT, ENABLE */
}

#endif
