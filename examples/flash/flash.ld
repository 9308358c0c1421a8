/* Code that is in RAM at 0x00200000, a ROM below it, a flash above. */
ENTRY(journal_append)

MEMORY
{
    ram (rwx) : ORIGIN = 0x00200000, LENGTH = 16K
}

rom_reset = 0x00100000;
rom_watchdog = 0x00100040;
flash_base = 0x0c000000;
journal = 0x0c070000;

SECTIONS
{
    .ramcode : { *(.ramcode) } > ram
    .data : { *(.data) } > ram
    .bss : { *(.bss) } > ram
    /DISCARD/ : { *(.comment) *(.note*) }
}
