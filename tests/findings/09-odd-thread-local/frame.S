/* mov -8(%rbp), %rax, where 42 lies, or the same bytes with a relocation. Ends with rax. */
#include "start.inc"
    push $42
    lea 8(%rsp), %rbp
at: .byte 0x48, 0x8b, 0x85
#ifdef TYPE
    .type foo, @tls_object
    .reloc ., TYPE, foo - 4
#endif
    .long -8
    exit %rax
