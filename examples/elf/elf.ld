/* A ROM at 0, and RAM at 0x20000000: further than a branch goes. */
ENTRY(start)

MEMORY
{
    rom (rx) : ORIGIN = 0x00000000, LENGTH = 64K
    ram (rwx) : ORIGIN = 0x20000000, LENGTH = 32K
}

SECTIONS
{
    .start : { KEEP(*(.start)) } > rom
    .thumb : { *(.thumb) } > rom
    .text : { *(.text .text.*) } > rom
    .ramcode : { *(.ramcode) } > ram
    .data : { *(.data .data.*) } > ram
    .bss : { *(.bss .bss.*) } > ram
    /DISCARD/ : { *(.comment) *(.note*) *(.ARM.exidx*) }
}
