/* A thread-local variable's address in the large code model. */
#include "start.inc"
    lea _GLOBAL_OFFSET_TABLE_(%rip), BASE
at: sub $8, %rsp
    lea foo@tlsgd(%rip), %rdi
    movabs $__tls_get_addr@PLTOFF, %rax
    add BASE, %rax
    call *%rax
