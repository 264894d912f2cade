/* What each of the Secure sides has. */
#ifndef SERVICE_H
#define SERVICE_H

#include <arm_cmse.h>
#include <stdint.h>

#include "gateway.h"

#define ENTRY __attribute__((cmse_nonsecure_entry))

/* It is given to the compiler, so that one source makes images that differ in nothing else. */
static const volatile uint32_t secret = SECRET;

/* Whether Non-secure code may itself write there. */
static inline int is_callers(struct answer *answer)
{
    return cmse_check_pointed_object(answer, CMSE_NONSECURE | CMSE_MPU_READWRITE) != 0;
}

/* The Secure priority from which on exceptions wait; 0 is none. */
static inline uint32_t basepri(void)
{
    uint32_t value;
    __asm__ volatile("mrs %0, basepri" : "=r"(value));
    return value;
}

static inline void set_basepri(uint32_t value)
{
    __asm__ volatile("msr basepri, %0" : : "r"(value) : "memory");
}

#endif
