/* Marks for bd check: which stores commit, and which go to a device's register that no barrier has to follow.

   BD_COMMIT8, 16, 32 and 64 store a value through a pointer, by one instruction, and note its address in the section .bd.commit, which is not
   loaded. BD_DEVICE8 to 64 do the same for .bd.device. For A32 alone. In assembler sources, bd_commit and bd_device stand before the store. */
#ifndef BRASSDOZEN_MARK_H
#define BRASSDOZEN_MARK_H

#ifdef __ASSEMBLER__

/* clang-format off */
.macro bd_commit
    bd_mark .bd.commit, \@
.endm
.macro bd_device
    bd_mark .bd.device, \@
.endm
.macro bd_mark section, number
.Lbd_mark\number:
    .pushsection \section, "o?", %progbits, .Lbd_mark\number
    .long .Lbd_mark\number
    .popsection
.endm
/* clang-format on */

#else

#include <stdint.h>

/* The label stands at the store. The section is dropped with the code that it is linked to ("o"), and is of its group if it has one ("?"), so that
   --gc-sections drops both or none, and an inline function of C++ may be in several objects. */
#define BD_MARK_(section, store, pointer, value)                                                                                                     \
    __asm__ volatile(".Lbd_mark%=:\n\t" store "\n\t"                                                                                                 \
                     ".pushsection " section ", \"o?\", %%progbits, .Lbd_mark%=\n\t"                                                                 \
                     ".long .Lbd_mark%=\n\t"                                                                                                         \
                     ".popsection"                                                                                                                   \
                     :                                                                                                                               \
                     : "r"(pointer), "r"(value)                                                                                                      \
                     : "memory")

#define BD_STORE_(section, type, store, pointer, value) BD_MARK_(section, store, (volatile type *)(pointer), (type)(value))

#define BD_COMMIT8(pointer, value) BD_STORE_(".bd.commit", uint8_t, "strb %1, [%0]", pointer, value)
#define BD_COMMIT16(pointer, value) BD_STORE_(".bd.commit", uint16_t, "strh %1, [%0]", pointer, value)
#define BD_COMMIT32(pointer, value) BD_STORE_(".bd.commit", uint32_t, "str %1, [%0]", pointer, value)
#define BD_COMMIT64(pointer, value) BD_STORE_(".bd.commit", uint64_t, "strd %1, %H1, [%0]", pointer, value)

#define BD_DEVICE8(pointer, value) BD_STORE_(".bd.device", uint8_t, "strb %1, [%0]", pointer, value)
#define BD_DEVICE16(pointer, value) BD_STORE_(".bd.device", uint16_t, "strh %1, [%0]", pointer, value)
#define BD_DEVICE32(pointer, value) BD_STORE_(".bd.device", uint32_t, "str %1, [%0]", pointer, value)
#define BD_DEVICE64(pointer, value) BD_STORE_(".bd.device", uint64_t, "strd %1, %H1, [%0]", pointer, value)

#endif

#endif
