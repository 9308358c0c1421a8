/* A driver for NOR flash of 16-bit words with AMD's command set. While the flash programs or erases, nothing can be read from it, so the
   code that waits for it stands in RAM: every function here is in the section .ramcode. */
#ifndef FLASH_H
#define FLASH_H

#include <stdint.h>

#define RAMCODE __attribute__((section(".ramcode"), noinline))

enum {
    FLASH_OK,
    FLASH_FAILED,    /* the flash gave up, or never answered */
    FLASH_FULL,      /* no place is left */
    FLASH_TOO_LONG,  /* more words than a record has */
};

/* flash.c */
int flash_program(volatile uint16_t *to, uint16_t value);
int flash_program_word(volatile uint16_t *to, uint32_t value);
int flash_erase(volatile uint16_t *block);

/* journal.c */
int journal_append(const uint32_t *words, uint32_t count);
int journal_clear(void);

/* entry.s */
uint32_t irq_off(void);
void irq_restore(uint32_t status);
void leave_to_rom(void) __attribute__((noreturn));

/* The ROM's entry points, which flash.ld has by address. */
void rom_watchdog(void);
void rom_reset(void) __attribute__((noreturn));

#endif
