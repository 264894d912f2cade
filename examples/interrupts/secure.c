/* The Secure side: it sets up what belongs to which side, hands over, and offers two functions. Its timer, one
   interrupt and the faults of Non-secure code come to it. */
#include <arm_cmse.h>
#include <stdint.h>

#include "gateway.h"
#include "registers.h"

#define ENTRY __attribute__((cmse_nonsecure_entry))

/* The places that the linker script names. */
extern uint32_t stack_top[];
extern const uint32_t nonsecure_vectors[];

void reset(void);
void secure_fault(void);
_Noreturn void hand_over(uint32_t stack, uint32_t entry);

static const uint32_t key[2] = {0x243f6a88, 0x85a308d3};
static volatile uint32_t ticks;
static volatile uint32_t presses;
static volatile uint32_t refusals;

/* SysTick of the Secure side. */
static void tick(void)
{
    ticks++;
}

/* Interrupt 2. */
static void press(void)
{
    presses++;
}

/* SecureFault. Non-secure code wanted what isn't its own: it gets 0 in R0, and goes on behind the instruction. */
void refuse(uint32_t *frame)
{
    refusals++;
    frame[0] = 0;
    frame[6] += *(const uint16_t *)frame[6] < 0xe800 ? 2 : 4;
    REGISTER(SFSR) = 0xff;
}

/* Any other fault. */
static void stop(void)
{
    for (;;)
        ;
}

__attribute__((section(".vectors"), used))
static const void *const vectors[] = {
    stack_top, reset, stop, stop, stop, stop, stop, secure_fault, /* NMI, HardFault, .. SecureFault */
    0, 0, 0, stop, 0, 0, stop, tick,                              /* SVCall, PendSV, SysTick */
    stop, stop, press,                                            /* interrupts 0 to 2 */
};

ENTRY uint32_t uptime(void)
{
    return ticks;
}

ENTRY uint32_t seal(const uint8_t *bytes, uint32_t length)
{
    uint32_t x = key[0], y = key[1];
    if (!cmse_check_address_range((void *)bytes, length, CMSE_NONSECURE | CMSE_MPU_READ))
        return 0;
    for (uint32_t i = 0; i < length; i++) {
        x ^= bytes[i];
        x *= 0x01000193;
        y += x;
        y = y << 7 | y >> 25;
    }
    return x ^ y;
}

/* Addresses from `first` to `last` belong to Non-secure code; or with `callable` they may be called by it. */
static void give(uint32_t region, uint32_t first, uint32_t last, uint32_t callable)
{
    REGISTER(SAU_RNR) = region;
    REGISTER(SAU_RBAR) = first;
    REGISTER(SAU_RLAR) = (last & ~31) | callable << 1 | 1;
}

int main(void)
{
    give(0, 0x00200000, 0x00201fff, 0);
    give(1, 0x28200000, 0x28200fff, 0);
    give(2, 0x10002000, 0x100020ff, 1);
    REGISTER(SAU_CTRL) = 1;
    REGISTER(AIRCR) = 0x05fa4000;  /* PRIS: Non-secure priorities count from 0x80 on */
    REGISTER(SHCSR) = 1 << 19;     /* SecureFault is enabled */
    REGISTER(SHPR3) = 0x40000000;  /* SysTick */
    REGISTER(NVIC_ITNS0) = 1 << 5; /* interrupt 5 is Non-secure */
    REGISTER(NVIC_IPR0) = 0x200000;
    REGISTER(NVIC_ISER0) = 1 << 2;
    REGISTER(OF_NONSECURE(VTOR)) = (uint32_t)nonsecure_vectors;
    start_timer(397);
    hand_over(nonsecure_vectors[0], nonsecure_vectors[1]);
}
