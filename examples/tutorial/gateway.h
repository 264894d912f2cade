/* What Secure code offers to Non-secure code. */
#ifndef GATEWAY_H
#define GATEWAY_H

#include <stdint.h>

/* 1 where `number` is the right one, and else 0. */
uint32_t is_right(uint32_t number);

/* The sum of `count` words, or 0 where the caller may not read all of them. */
uint32_t total(const uint32_t *words, uint32_t count);

#endif
