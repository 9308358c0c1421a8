/* A journal in one block of flash. A record is its payload, how many words of it count, their sum, and a commit word. The commit word is
   written last, and only when the flash is known to hold all the rest: a record without it is not there. */
#include "flash.h"

enum { WORDS = 13, RECORDS = 1024 };
#define COMMIT 0x600dc0deu
#define ERASED 0xffffffffu

struct record {
    uint32_t payload[WORDS];
    uint32_t count;
    uint32_t sum;
    uint32_t commit;
};

extern struct record journal[RECORDS]; /* flash.ld */

static inline volatile uint16_t *place_of(uint32_t *word)
{
    return (volatile uint16_t *)word;
}

static inline uint32_t turned(uint32_t x)
{
    return x << 5 | x >> 27;
}

/* The first record that nobody began, or one past the last. */
RAMCODE static struct record *free_record(void)
{
    struct record *r = journal;
    for (; r < journal + RECORDS; r++) {
        const uint32_t *at = (const uint32_t *)r;
        uint32_t all = ERASED;
        for (uint32_t n = 0; n < sizeof *r / 4; n++)
            all &= at[n];
        if (all == ERASED)
            break;
    }
    return r;
}

RAMCODE int journal_append(const uint32_t *words, uint32_t count)
{
    if (count > WORDS)
        return FLASH_TOO_LONG;
    struct record *r = free_record();
    if (r == journal + RECORDS)
        return FLASH_FULL;

    uint32_t sum = count;
    for (uint32_t n = 0; n < count; n++) {
        int result = flash_program_word(place_of(&r->payload[n]), words[n]);
        if (result != FLASH_OK)
            return result;
        sum = turned(sum) ^ words[n];
    }
    int result = flash_program_word(place_of(&r->count), count);
    if (result == FLASH_OK)
        result = flash_program_word(place_of(&r->sum), sum);
    if (result != FLASH_OK)
        return result;

    /* No store of the payload may come after one of the commit word. */
    __asm__ volatile("dsb sy" ::: "memory");
    return flash_program_word(place_of(&r->commit), COMMIT);
}

/* Erases the journal; a system that can't is reset by the ROM. */
RAMCODE int journal_clear(void)
{
#ifndef INSIDE
    if (flash_erase(place_of(journal[0].payload)) != FLASH_OK)
        leave_to_rom();
    return FLASH_OK;
#else
    return flash_erase(place_of(journal[0].payload));
#endif
}
