/* A hidden variable in a section of its own, which far.ld puts out of reach of 32 bits. */
    .section .far, "aw", @progbits
    .globl foo
    .hidden foo
foo:
    .quad 42
