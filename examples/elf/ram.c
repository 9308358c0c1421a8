/* In RAM: a switch, a function pointer, a critical part with interrupts off, and calls into the ROM, which is too far for a branch. */
#include "elf.h"

static uint32_t locked = 1;

/* Another file has a static routine of this name. */
RAMCODE static uint32_t helper(uint32_t value)
{
    return value * 0x01000193u ^ 0x811c9dc5u;
}

RAMCODE static uint32_t read_word(uint32_t *at, uint32_t value) { return *at + value; }
RAMCODE static uint32_t write_word(uint32_t *at, uint32_t value) { return *at = helper(value); }

/* What runs with interrupts off. */
RAMCODE uint32_t critical(uint32_t *at, uint32_t value)
{
    uint32_t old;
    __asm__ volatile("cpsid i" ::: "memory");
    old = *at;
    *at = value;
    __asm__ volatile("dsb sy\n\tcpsie i" ::: "memory");
    return old;
}

typedef uint32_t handler(uint32_t *at, uint32_t value);
static handler *volatile handlers[2] = {read_word, write_word};

RAMCODE uint32_t dispatch(enum command command, uint32_t *at, uint32_t value)
{
    switch (command) {
    case READ:
    case WRITE:
        return handlers[command](at, value);
    case ERASE:
        return locked ? 0 : rom_copy(at, at + 64, value);
    case LOCK:
        locked = 1;
        return critical(at, 0x600dc0de);
    case UNLOCK:
        locked = value != 0x5a00ffff;
        return critical(at, 0xdeadbeef);
    case STATUS:
        return rom_sum(at, value) + 0x12345678;
    default:
        return 0xffffff01;
    }
}
