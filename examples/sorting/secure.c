/* The Secure side: it hands over to Non-secure code, and offers `verify` to it. */
#include <arm_cmse.h>
#include <stdint.h>

#include "gateway.h"

#define ENTRY __attribute__((cmse_nonsecure_entry))

/* The places that the linker script names. */
extern uint32_t stack_top[];
extern const uint32_t nonsecure_vectors[];

_Noreturn void hand_over(uint32_t stack, uint32_t entry);

/* The Non-secure vector table begins with a stack and an entry, as the Secure one does. */
static _Noreturn void reset(void)
{
    hand_over(nonsecure_vectors[0], nonsecure_vectors[1]);
}

__attribute__((section(".vectors"), used))
static const void *const vectors[] = {stack_top, reset};

/* CRC-32, four bits at a time: the remainders of the sixteen values of four bits. */
static const uint32_t remainders[16] = {
    0x00000000, 0x1db71064, 0x3b6e20c8, 0x26d930ac, 0x76dc4190, 0x6b6b51f4, 0x4db26158, 0x5005713c,
    0xedb88320, 0xf00f9344, 0xd6d6a3e8, 0xcb61b38c, 0x9b64c2b0, 0x86d3d2d4, 0xa00ae278, 0xbdbdf21c,
};

static __attribute__((noinline)) uint32_t crc_of(const uint8_t *bytes, uint32_t length)
{
    uint32_t crc = 0xffffffff;
    for (const uint8_t *end = bytes + length; bytes != end; bytes++) {
        crc ^= *bytes;
        crc = crc >> 4 ^ remainders[crc & 15];
        crc = crc >> 4 ^ remainders[crc & 15];
    }
    return ~crc;
}

ENTRY uint32_t verify(const uint8_t *bytes, uint32_t length, uint32_t crc)
{
    if (!cmse_check_address_range((void *)bytes, length, CMSE_NONSECURE | CMSE_MPU_READ))
        return VERIFY_REFUSED;
    return crc_of(bytes, length) == crc ? VERIFY_SAME : VERIFY_OTHER;
}
