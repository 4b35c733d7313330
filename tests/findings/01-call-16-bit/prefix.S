/* The given bytes before a 32-bit distance to `mov $42, %edi; ret`. */
#include "start.inc"
    .irp byte, BYTES
    .byte 0x\byte
    .endr
    .long answer - . - 4
    exit %rdi
answer:
    mov $42, %edi
    ret
