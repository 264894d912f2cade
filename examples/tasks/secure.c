/* The Secure side: sessions of Non-secure tasks, each with a key. */
#include <arm_cmse.h>

#include "gateway.h"

#define ENTRY __attribute__((cmse_nonsecure_entry))
#define REGISTER(address) (*(volatile uint32_t *)(address))
#define ROUNDS 4
#define SESSIONS 2
#define TASKS 2
#define STACK 64 /* words of a task's Secure stack */

/* The places that the linker script names. */
extern uint32_t stack_top[], bss_end[];
extern const uint32_t nonsecure_vectors[];

/* `volatile`, so that two images with two first keys have the same code. */
static const volatile uint32_t keys[SESSIONS][4] = {
    {FIRST, FIRST + 1, 3 * FIRST, ~FIRST},
    {0x0badc0de, 0x0badc0df, 0x2309429a, 0xf4523f21},
};

/* A return that takes from an empty stack finds these. */
static const uint32_t seal[2] = {0xfef5eda5, 0xfef5eda5};

static uint32_t running, opened, owners[SESSIONS], beats;

_Noreturn void hand_over(const uint32_t *seal, uint32_t stack, uint32_t entry, uint32_t control);

ENTRY uint32_t secure_open(void)
{
    if (opened == SESSIONS)
        return 0;
    owners[opened] = running;
    return ++opened;
}

ENTRY uint32_t secure_call(uint32_t handle, uint32_t word)
{
    uint32_t session = handle - 1;
    if (session >= opened || owners[session] != running)
        return 0;
    uint32_t a = word, b = 0, sum = 0;
    for (int i = 0; i < ROUNDS; i++) {
        a += (((b << 4) ^ (b >> 5)) + b) ^ (sum + keys[session][sum & 3]);
        sum += 0x9e3779b9;
        b += (((a << 4) ^ (a >> 5)) + a) ^ (sum + keys[session][(sum >> 11) & 3]);
    }
    return a;
}

#ifdef ONE_STACK

ENTRY void secure_switch(uint32_t task)
{
    (void)task;
}

static uint32_t make_stacks(void)
{
    return 0;
}

#else

static uint32_t stacks[TASKS][STACK] __attribute__((aligned(8)));
static uint32_t *tops[TASKS];

/* From here on Thread mode has the stack of this task. */
static void load(uint32_t task)
{
    running = task;
    __asm__ volatile("msr psplim, %0\n\tmsr psp, %1" : : "r"(stacks[task]), "r"(tops[task]));
}

ENTRY void secure_switch(uint32_t task)
{
    uint32_t exception;
    __asm__ volatile("mrs %0, ipsr" : "=r"(exception));
    if (exception == 0 || task >= TASKS)
        return; /* a task itself doesn't switch */
    __asm__ volatile("mrs %0, psp" : "=r"(tops[running]));
    load(task);
}

/* CONTROL with SPSEL, for Thread mode that has PSP. */
static uint32_t make_stacks(void)
{
    for (int task = 0; task < TASKS; task++) {
        tops[task] = &stacks[task][STACK - 2];
        tops[task][0] = seal[0];
        tops[task][1] = seal[1];
    }
    load(0);
    return 2;
}

#endif

static _Noreturn void reset(void)
{
    __asm__ volatile("msr msplim, %0" : : "r"(bss_end));
    REGISTER(0xe000e380) = 1; /* NVIC_ITNS0: interrupt 0 is Non-secure */
    REGISTER(0xe000e100) = 2; /* NVIC_ISER0: interrupt 1 is enabled, and Secure */
    REGISTER(0xe000e400) = 0x4000; /* NVIC_IPR0: its priority is 0x40 */
    REGISTER(0xe000ed0c) = 0x05fa0000 | PRIS << 14; /* AIRCR */
    hand_over(seal, nonsecure_vectors[0], nonsecure_vectors[1], make_stacks());
}

/* Interrupt 1. */
static void beat(void)
{
    beats++;
}

static void stop(void)
{
    for (;;)
        ;
}

__attribute__((section(".vectors"), used))
static const void *const vectors[] = {stack_top, reset, stop, stop, stop, stop, stop, stop, [17] = beat};
