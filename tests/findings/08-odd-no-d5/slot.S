/* nop; mov slot(%rip), %rbp */
#include "start.inc"
at: .byte 0x90, 0x48, 0x8b, 0x2d
    .long slot - . - 4
    compare $0x1000, %rbp
slot:
    .quad 0x1000
