@ Interrupts off and on, and the way out of RAM.
        .syntax unified
        .arm
        .section .ramcode, "ax", %progbits

@ Turns interrupts off; gives the status as it was.
        .global irq_off
        .type   irq_off, %function
irq_off:
        mrs     r0, cpsr
        orr     r1, r0, #0x80
        msr     cpsr_c, r1
        bx      lr

        .global irq_restore
        .type   irq_restore, %function
irq_restore:
        msr     cpsr_c, r0
        bx      lr

@ Leaves the watchdog its key and jumps to the ROM.
        .ifndef INSIDE
        .global leave_to_rom
        .type   leave_to_rom, %function
leave_to_rom:
        bl      irq_off
        ldr     r0, =0xfffffd40         @ the watchdog's control register
        ldr     r1, =0x5a00ffff
        str     r1, [r0]
        dsb     sy
        b       rom_reset
        .ltorg
        .endif
