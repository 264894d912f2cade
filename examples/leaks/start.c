/* How each of the Secure sides starts. */
#include <stdint.h>

/* The places that the linker script names. */
extern uint32_t stack_top[];
extern const uint32_t nonsecure_vectors[];

/* A return that takes from an empty stack finds these. */
static const uint32_t seal[2] = {0xfef5eda5, 0xfef5eda5};

_Noreturn void hand_over(const uint32_t *seal, uint32_t stack, uint32_t entry);

static _Noreturn void reset(void)
{
    hand_over(seal, nonsecure_vectors[0], nonsecure_vectors[1]);
}

static void stop(void)
{
    for (;;)
        ;
}

__attribute__((section(".vectors"), used))
static const void *const vectors[] = {stack_top, reset, stop, stop};
