/* The Secure side: it hands over to Non-secure code, and offers `is_found` to it, which calls Non-secure code. */
#include <arm_cmse.h>
#include <stdint.h>

#define ENTRY __attribute__((cmse_nonsecure_entry))

/* A function of Non-secure code. */
typedef uint32_t __attribute__((cmse_nonsecure_call)) guess_type(uint32_t beginning);

/* The places that the linker script names. */
extern uint32_t stack_top[];
extern const uint32_t nonsecure_vectors[];

_Noreturn void hand_over(uint32_t stack, uint32_t entry);

/* The Non-secure vector table begins with a stack and an entry, as the Secure one does. */
static _Noreturn void reset(void)
{
    hand_over(nonsecure_vectors[0], nonsecure_vectors[1]);
}

__attribute__((section(".vectors"), used))
static const void *const vectors[] = {stack_top, reset};

ENTRY uint32_t is_found(guess_type *guess)
{
    uint32_t number = 0x5ec2e742;
    __asm__("" : "+r"(number)); /* GCC doesn't know which number it is, so it keeps it in a register */
    guess = cmse_nsfptr_create(guess);
    return guess(number >> 24) == number;
}
