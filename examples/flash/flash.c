/* Programming and erasing: a command, then a wait until the flash reads as it should. */
#include "flash.h"

/* The addresses that take commands, in 16-bit words from the start of the flash. */
enum { UNLOCK_1 = 0x555, UNLOCK_2 = 0x2aa };
enum { PROGRAM = 0xa0, ERASE = 0x80, BLOCK = 0x30, RESET = 0xf0 };

/* What a busy flash says of itself: this bit is set once it has given up. */
enum { GAVE_UP = 0x20 };

extern volatile uint16_t flash_base[]; /* flash.ld */

/* What stands before each command. */
RAMCODE static void unlock(void)
{
    flash_base[UNLOCK_1] = 0xaa;
    flash_base[UNLOCK_2] = 0x55;
}

/* Waits until `at` reads as `value`, and feeds the watchdog in the ROM meanwhile. */
RAMCODE static int settled(volatile uint16_t *at, uint16_t value)
{
    for (uint32_t left = 1000000; left != 0; left--) {
        uint16_t now = *at;
        if (now == value)
            return FLASH_OK;
        if ((now & GAVE_UP) != 0 && *at != value)
            break;
#ifndef INSIDE
        if (left % 4096 == 0)
            rom_watchdog();
#endif
    }
    *flash_base = RESET;
    return FLASH_FAILED;
}

RAMCODE int flash_program(volatile uint16_t *to, uint16_t value)
{
    uint32_t status = irq_off();
    unlock();
    flash_base[UNLOCK_1] = PROGRAM;
    *to = value;
    int result = settled(to, value);
    irq_restore(status);
    return result;
}

/* Low half first. */
RAMCODE int flash_program_word(volatile uint16_t *to, uint32_t value)
{
    int result = flash_program(to, (uint16_t)value);
    if (result != FLASH_OK)
        return result;
    return flash_program(to + 1, (uint16_t)(value >> 16));
}

RAMCODE int flash_erase(volatile uint16_t *block)
{
    uint32_t status = irq_off();
    unlock();
    flash_base[UNLOCK_1] = ERASE;
    unlock();
    *block = BLOCK;
    int result = settled(block, 0xffff);
    irq_restore(status);
    return result;
}
