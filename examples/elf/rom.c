/* In ROM. */
#include "elf.h"

/* Another file has a static routine of this name. */
KEEP static uint32_t helper(uint32_t value)
{
    return value << 7 | value >> 25;
}

uint32_t rom_copy(uint32_t *to, const uint32_t *from, uint32_t words)
{
    uint32_t n;
    for (n = 0; n < words; n++)
        to[n] = from[n];
    return n;
}

uint32_t rom_sum(const uint32_t *from, uint32_t words)
{
    uint32_t sum = 0x9e3779b9;
    for (uint32_t n = 0; n < words; n++)
        sum = helper(sum) ^ from[n];
    return sum;
}

/* Nobody calls it: it is there exactly if sections that nothing reaches are kept. */
uint32_t rom_unused(uint32_t value)
{
    return helper(value) + 0x00c0ffee;
}
