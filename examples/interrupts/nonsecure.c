/* The Non-secure side: an application with a timer, deferred work, an interrupt and a supervisor call. */
#include <stdint.h>

#include "gateway.h"
#include "registers.h"

/* The place that the linker script names. */
extern uint32_t stack_top[];

void reset(void);
void supervisor(void);
uint32_t larger_of(uint32_t first, uint32_t second);
uint32_t peek(const uint32_t *address);

static const uint8_t text[12] = "preempt me!";
static volatile uint32_t ticks, deferred, alarms, alarm_time;
static volatile uint32_t results[3];

/* SysTick of the Non-secure side: has PendSV do the rest. */
static void tick(void)
{
    ticks++;
    REGISTER(ICSR) = 1 << 28;
}

/* PendSV, whose priority is the least. */
static void defer(void)
{
    deferred += ticks;
}

/* Interrupt 5. */
static void alarm(void)
{
    alarms++;
    alarm_time = uptime();
}

/* SVCall: service 7 answers the larger one of R0 and R1. */
void serve(uint32_t *frame)
{
    const uint8_t *behind = (const uint8_t *)frame[6];
    if (behind[-2] == 7 && frame[1] > frame[0])
        frame[0] = frame[1];
}

/* Any fault that comes to this side. */
static void stop(void)
{
    for (;;)
        ;
}

__attribute__((section(".vectors"), used))
static const void *const vectors[] = {
    stack_top, reset, stop, stop, stop, stop, stop, stop, /* NMI, HardFault, .. */
    0, 0, 0, supervisor, 0, 0, defer, tick,               /* SVCall, PendSV, SysTick */
    stop, stop, stop, stop, stop, alarm,                  /* interrupts 0 to 5 */
};

int main(void)
{
    REGISTER(SHPR2) = 0x60000000; /* SVCall */
    REGISTER(SHPR3) = 0x80ff0000; /* SysTick, PendSV */
    REGISTER(NVIC_IPR1) = 0x4000; /* interrupt 5 */
    REGISTER(NVIC_ISER0) = 1 << 5;
    start_timer(250);
    results[0] = larger_of(12, 40);
    results[1] = seal(text, sizeof text);
    results[2] = peek((const uint32_t *)0x38000000); /* Secure RAM */
    for (;;) {
        __asm__ volatile("wfi");
        results[1] = seal(text, sizeof text);
    }
}
