/* Reads a thread-local variable, 42, by a pair, general or local dynamic. EMPTY: with records of type 0 in it. */
#include "start.inc"
#ifdef EMPTY
#define NONE .reloc ., R_X86_64_NONE
#else
#define NONE
#endif
    mov $158, %eax                  /* arch_prctl(ARCH_SET_FS, thread) */
    mov $0x1002, %edi
    lea thread(%rip), %rsi
    syscall
at:
#ifdef GENERAL
    .byte 0x66
    lea foo@tlsgd(%rip), %rdi
    NONE
    .byte 0x66, 0x66
    NONE
    rex64 call __tls_get_addr@PLT
#else
    lea foo@tlsld(%rip), %rdi
    NONE
    call __tls_get_addr@PLT
    lea foo@dtpoff(%rax), %rax
#endif
    mov (%rax), %eax
    exit %rax

    .globl __tls_get_addr           /* not called where the pair is relaxed */
    .type __tls_get_addr, @function
__tls_get_addr:
    ret

    .section .tdata, "awT", @progbits
    .balign 8
    .long 7
foo:
    .long 42
    .data
    .balign 8
    .long 7, 42                     /* as .tdata */
thread:
    .quad thread, 0, 0, 0
