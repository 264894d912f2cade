/* The Non-secure kernel: two tasks, unprivileged and behind the MPU, take turns at each tick and each SVC. */
#include "gateway.h"
#include "tasks.h"

#define REGISTER(address) (*(volatile uint32_t *)(address))
#define ICSR REGISTER(0xe000ed04)
#define MPU_RNR REGISTER(0xe000ed98)
#define MPU_RBAR REGISTER(0xe000ed9c)
#define MPU_RLAR REGISTER(0xe000eda0)

extern uint32_t stack_top[];

static struct ram ram[2];
static uint32_t *tops[2];
static uint32_t running;

/* A region of the MPU, from its first address to behind its last one, with the bits of RBAR. */
static void protect(uint32_t region, uint32_t first, uint32_t behind, uint32_t bits)
{
    MPU_RNR = region;
    MPU_RBAR = first | bits;
    MPU_RLAR = (behind - 32) | 1;
}

/* Of the tasks' RAM this one's alone is there, and its stack ends at its data. */
static void protect_task(uint32_t task)
{
    protect(1, (uint32_t)&ram[task], (uint32_t)&ram[task + 1], 3); /* for all to write, and no code */
    __asm__ volatile("msr psplim, %0" : : "r"(ram[task].stack));
}

/* The other task's turn. Takes the stack pointer of the one that ran, and gives that of the other. */
__attribute__((used)) static uint32_t *next(uint32_t *top)
{
    tops[running] = top;
    running = 1 - running;
    protect_task(running);
    secure_switch(running);
    return tops[running];
}

/* What an entry doesn't save stands below PSP: R4 to R11, and in LR which side's code was interrupted. */
__attribute__((naked)) static void pend_sv(void)
{
    __asm__("mrs r0, psp\n\t"
            "stmdb r0!, {r4-r11, lr}\n\t"
            "bl next\n\t"
            "ldmia r0!, {r4-r11, lr}\n\t"
            "msr psp, r0\n\t"
            "bx lr");
}

/* SysTick, SVCall and interrupt 0. */
static void tick(void)
{
    ICSR = 1 << 28; /* PendSV */
}

static void stop(void)
{
    for (;;)
        ;
}

/* To the first task, unprivileged and with PSP. */
_Noreturn void start(uint32_t *data, void *task);
__asm__("start: movs r2, #3\n\t"
        "msr control, r2\n\t"
        "isb\n\t"
        "bx r1");

static _Noreturn void reset(void)
{
    uint32_t *top = tops[1] = (uint32_t *)(ram + 2) - 17;
    top[8] = 0xffffffbc; /* EXC_RETURN: to Non-secure code in Thread mode, with PSP */
    top[9] = (uint32_t)ram[1].data;
    top[15] = (uint32_t)other & ~1u;
    top[16] = 1 << 24;
    __asm__ volatile("msr psp, %0" : : "r"(ram + 1)); /* a tick may come before the first task runs */
    REGISTER(0xe000ed20) = LEAST << 16; /* SHPR3: the priority of PendSV */
    REGISTER(0xe000ed24) = 1 << 16;     /* SHCSR: MemManage */
    REGISTER(0xe000e100) = 1;           /* NVIC_ISER0 */
    protect(0, 0x00200000, 0x00210000, 6); /* for all to read */
    protect_task(0);
    REGISTER(0xe000ed94) = 5; /* MPU_CTRL: for the kernel what no region has */
    REGISTER(0xe000e014) = TURN - 1; /* SYST_RVR: the steps of a turn */
    REGISTER(0xe000e018) = 0;
    REGISTER(0xe000e010) = 7; /* SYST_CSR */
    start(ram[0].data, owner);
}

__attribute__((section(".vectors"), used))
static const void *const vectors[] = {
    stack_top, reset, stop, stop, stop, stop, stop, stop, [11] = tick, [14] = pend_sv, [15] = tick, [16] = tick,
};
