/* Calls an undefined weak symbol. Ends with 0 if that leads to the image's start, otherwise with 1. */
#include "start.inc"
    .weak foo
    .hidden __ehdr_start
    lea fault(%rip), %rax
    push $0                         # the action: mask, restorer, SA_RESTORER and SA_SIGINFO, handler
    push %rax
    push $0x4000004
    push %rax
    mov $13, %eax                   # rt_sigaction
    mov $11, %edi                   # SIGSEGV
    mov %rsp, %rsi
    xor %edx, %edx
    mov $8, %r10d
    syscall
at: call *foo@GOTPCREL(%rip)
fault:
    mov 168(%rdx), %rax             # rip in the third argument, a ucontext_t
    lea __ehdr_start(%rip), %rcx
    compare %rcx, %rax
