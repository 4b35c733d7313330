# Instructions and data with relocations that compilers seldom write; absolute.s has the absolute
# symbols.
        .weak   nowhere
        .hidden hidden_nowhere
        .weak   hidden_nowhere

        .macro  got name
        movq    \name@GOTPCREL(%rip), %rax
        movq    \name@GOTPCREL(%rip), %r13
        addq    \name@GOTPCREL(%rip), %rbp
        subq    \name@GOTPCREL(%rip), %r9
        cmpq    \name@GOTPCREL(%rip), %rdi
        testq   %r10, \name@GOTPCREL(%rip)
        movl    \name@GOTPCREL(%rip), %ecx
        movl    \name@GOTPCREL(%rip), %r11d
        movl    \name@GOTPCREL+4(%rip), %ecx
        call    *\name@GOTPCREL(%rip)
        jmp     *\name@GOTPCREL(%rip)
        cmpq    $0, \name@GOTPCREL(%rip)
        pushq   \name@GOTPCREL(%rip)
        call    \name@PLT
        jmp     \name
        .endm

        .text
        .globl  start
start:
        got     absolute
        got     large_absolute
        got     negative_absolute
        got     far_absolute
        got     nowhere
        got     hidden_nowhere
        got     elsewhere
        got     start
        leaq    _GLOBAL_OFFSET_TABLE_(%rip), %rbx
        .reloc  start, R_X86_64_NONE, elsewhere

# Thread-local sequences, and some that aren't quite.
        .section .text.threads, "ax", @progbits
        .byte   0x66
        leaq    variable@tlsgd(%rip), %rdi
        .value  0x6666
        rex64
        call    __tls_get_addr@PLT
        leaq    variable@tlsgd(%rip), %rdi
        call    __tls_get_addr@PLT
        leaq    variable@tlsld(%rip), %rdi
        call    __tls_get_addr@PLT
        leaq    variable@dtpoff(%rax), %rdx
        leaq    variable@tlsld(%rip), %rsi
        nop
        movq    variable@gottpoff(%rip), %rax
        addq    variable@gottpoff(%rip), %r12
        subq    variable@gottpoff(%rip), %r12
        movl    variable@gottpoff(%rip), %eax
        leaq    variable@tlsdesc(%rip), %rax
        call    *variable@tlscall(%rax)
        leaq    variable@tlsdesc(%rip), %r14
        call    *variable@tlscall(%rax)
        movq    %fs:variable@tpoff, %rax
        movabsq $variable@tpoff, %rcx

# Refused: a section that ends before the rewritten instruction does, and two that overlap.
        .section .text.cut, "ax", @progbits
        .byte   0xff
        .reloc  ., R_X86_64_TLSDESC_CALL, variable
        .byte   0x10
        .section .text.overlap, "ax", @progbits
        .reloc  ., R_X86_64_TLSDESC_CALL, variable
        .reloc  ., R_X86_64_TLSDESC_CALL, variable
        call    *(%rax)

# A thread-local sequence whose call has no record: the end of the pass is refused.
        .section .text.missing, "ax", @progbits
        .byte   0x66
        leaq    variable@tlsgd(%rip), %rdi
        .byte   0x66, 0x66, 0x48, 0xe8, 0, 0, 0, 0

        .data
        .quad   elsewhere, absolute, start
        .long   elsewhere, absolute
        .value  elsewhere
        .byte   elsewhere
        .long   elsewhere - .
        .value  elsewhere - .
        .byte   elsewhere - .
        .quad   elsewhere - .
        .long   elsewhere@SIZE
        .quad   elsewhere@SIZE
        .quad   elsewhere@GOT
        .quad   elsewhere@GOTOFF
        .quad   elsewhere@PLTOFF
        .quad   elsewhere@GOTPCREL
        .quad   elsewhere@GOTPLT
        .quad   _GLOBAL_OFFSET_TABLE_ - .
        .quad   variable@dtpoff
        .long   variable@tpoff
        .long   elsewhere@GOT

        .section .tdata, "awT", @progbits
variable:
        .long   7
