# Empty records between the two halves of thread-local pairs, as a partial link leaves them: `make` puts this through
# `ld -r`.
        .section .text.general, "ax", @progbits
        .byte   0x66
        leaq    variable@tlsgd(%rip), %rdi
        .reloc  ., R_X86_64_NONE
        .value  0x6666
        .reloc  ., R_X86_64_NONE
        rex64
        call    __tls_get_addr@PLT

        .section .text.local, "ax", @progbits
        leaq    variable@tlsld(%rip), %rdi
        .reloc  ., R_X86_64_NONE
        .reloc  ., R_X86_64_NONE
        call    __tls_get_addr@PLT

        .section .tdata, "awT", @progbits
variable:
        .long   7
