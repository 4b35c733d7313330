/* A shared object with a __tls_get_addr of its own, hidden, that answers 42. */
    .globl f, __tls_get_addr
    .hidden __tls_get_addr
f:  sub $8, %rsp
    data16 lea x@tlsgd(%rip), %rdi
at: .byte 0x66
    rex64 call *__tls_get_addr@GOTPCREL(%rip)
    add $8, %rsp
    ret
__tls_get_addr:
    mov $42, %eax
    ret
    .section .tbss, "awT", @nobits
x:  .zero 8
