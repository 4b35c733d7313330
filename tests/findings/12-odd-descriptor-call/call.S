/* call *(%rax) with a needless prefix, to a function that answers 42. Ends with the answer. */
#include "start.inc"
    lea pointer(%rip), %rax
at: .byte 0x48, 0xff, 0x10
#ifdef TYPE
    .type foo, @tls_object
    .reloc at, TYPE, foo
#endif
    exit %rax
answer:
    mov $42, %eax
    ret
pointer:
    .quad answer
