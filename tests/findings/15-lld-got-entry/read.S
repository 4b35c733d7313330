/* Ends with what lies at foo. */
#include "start.inc"
at: mov foo@GOTPCREL(%rip), %rax
    mov (%rax), %edi
    exit %rdi
#ifdef more
    .data
    .quad foo
#endif
