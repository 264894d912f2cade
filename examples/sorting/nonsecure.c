/* The Non-secure side: it sorts a list, keeps a copy, and has Secure code verify the CRC of the copy. */
#include <stdint.h>

#include "gateway.h"

/* The list has BLOCKS times 8 words, and is made and sorted ROUNDS times. */
#ifndef BLOCKS
#define BLOCKS 1
#endif
#ifndef ROUNDS
#define ROUNDS 1
#endif
#define WORDS (8 * BLOCKS)

#define APART __attribute__((noipa))

struct block {
    uint32_t words[8];
};

static struct block list[BLOCKS];
static struct block kept[BLOCKS];
static uint32_t seed = 2025;

static APART void fill(uint32_t *words, uint32_t count)
{
    for (uint32_t i = 0; i < count; i++) {
        seed = seed * 1664525 + 1013904223;
        words[i] = seed;
    }
}

static APART void sort(uint32_t *words, uint32_t count)
{
    for (uint32_t i = 1; i < count; i++) {
        uint32_t word = words[i];
        uint32_t j = i;
        for (; j > 0 && words[j - 1] > word; j--)
            words[j] = words[j - 1];
        words[j] = word;
    }
}

static APART void copy(struct block *to, const struct block *from, uint32_t count)
{
    for (uint32_t i = 0; i < count; i++)
        to[i] = from[i];
}

/* CRC-32, bit by bit. */
static APART uint32_t crc_of(const uint8_t *bytes, uint32_t length)
{
    uint32_t crc = 0xffffffff;
    for (const uint8_t *end = bytes + length; bytes != end; bytes++) {
        crc ^= *bytes;
        for (uint32_t bit = 0; bit < 8; bit++)
            crc = crc >> 1 ^ (crc & 1 ? 0xedb88320 : 0);
    }
    return ~crc;
}

/* A sum that tells the order of the words: each counts as often as its place says. */
static APART uint32_t order_of(const uint32_t *words, uint32_t count)
{
    uint32_t sum = 0;
    for (uint32_t i = 0; i < count; i++)
        sum += (i + 1) * words[i];
    return sum;
}

/* Stays here, with the three results in R0, R1 and R2. */
__attribute__((noipa)) static _Noreturn void stay(uint32_t crc, uint32_t verdict, uint32_t order)
{
    (void)crc, (void)verdict, (void)order;
    for (;;)
        ;
}

static _Noreturn void run(void)
{
    uint32_t crc = 0, verdict = 0;
    for (uint32_t round = 0; round < ROUNDS; round++) {
        fill(list[0].words, WORDS);
        sort(list[0].words, WORDS);
        copy(kept, list, BLOCKS);
        crc = crc_of((const uint8_t *)kept, sizeof kept);
        verdict = verify((const uint8_t *)kept, sizeof kept, crc);
    }
    stay(crc, verdict, order_of(kept[0].words, WORDS));
}

/* The places that the linker script names. */
extern uint32_t stack_top[], data_image[], data_begin[], data_end[], bss_begin[], bss_end[];

static _Noreturn void reset(void)
{
    const uint32_t *from = data_image;
    for (uint32_t *to = data_begin; to != data_end; to++)
        *to = *from++;
    for (uint32_t *to = bss_begin; to != bss_end; to++)
        *to = 0;
    run();
}

__attribute__((section(".vectors"), used))
static const void *const vectors[] = {stack_top, reset};
