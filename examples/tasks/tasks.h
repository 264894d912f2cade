/* What the kernel and its tasks share. */
#include <stdint.h>

/* The RAM of a task: the MPU gives it no other. */
struct ram {
    uint32_t data[4], stack[124];
} __attribute__((aligned(512)));

/* The two tasks. */
void owner(uint32_t *data);
void other(uint32_t *data);

static inline void yield(void)
{
    __asm__ volatile("svc #0" : : : "memory");
}
