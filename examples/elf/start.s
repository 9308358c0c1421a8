@ The start, without types or sizes, as assembler often is; and a routine of Thumb, in a section of its own.
        .syntax unified
        .arm
        .section .start, "ax", %progbits
        .global start
start:
        ldr     sp, =0x20008000
        mov     r0, #5
wait:
        subs    r0, r0, #1
        bne     wait
        bl      dispatch
        blx     thumb_delay
stop:
        b       stop
        .ltorg

        .section .thumb, "ax", %progbits
        .thumb
        .global thumb_delay
        .type   thumb_delay, %function
thumb_delay:
        subs    r0, #1
        bne     thumb_delay
        bx      lr
