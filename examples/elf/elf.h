/* A small firmware in parts: routines in RAM at one end of memory, others in ROM at the other. */
#include <stdint.h>

#define RAMCODE __attribute__((section(".ramcode"), noinline))
#define KEEP __attribute__((noinline))

enum command { READ, WRITE, ERASE, LOCK, UNLOCK, STATUS, COMMANDS };

uint32_t rom_copy(uint32_t *to, const uint32_t *from, uint32_t words);
uint32_t rom_sum(const uint32_t *from, uint32_t words);
uint32_t dispatch(enum command command, uint32_t *at, uint32_t value);
uint32_t critical(uint32_t *at, uint32_t value);
