/* mov foo@GOTPCREL(%rip), %ax, compared with the address. */
#include "start.inc"
    xor %eax, %eax
at: .byte 0x66, 0x8b, 0x05
    .reloc ., R_X86_64_GOTPCRELX, foo - 4
    .zero 4
    lea foo(%rip), %rcx
    compare %cx, %ax
