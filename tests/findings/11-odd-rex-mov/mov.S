/* mov foo@GOTPCREL(%rip), %r8d, and the given register compared with the address. */
#include "start.inc"
    xor %eax, %eax
    xor %r8d, %r8d
at: .byte 0x44, 0x8b, 0x05
    .reloc ., R_X86_64_GOTPCRELX, foo - 4
    .zero 4
    lea foo(%rip), %rcx
    compare %rcx, REGISTER
