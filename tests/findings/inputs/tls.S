/* A thread-local variable, and a lookup function that nothing calls when it runs. */
    .globl foo, __tls_get_addr
    .type __tls_get_addr, @function
__tls_get_addr:
    ret
    .section .tbss, "awT", @nobits
foo:
    .zero 8
