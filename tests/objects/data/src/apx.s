# APX: REX2 and EVEX forms.
        .macro  got name
        movq    \name@GOTPCREL(%rip), %r16
        movq    \name@GOTPCREL(%rip), %r31
        addq    \name@GOTPCREL(%rip), %r17
        subq    \name@GOTPCREL(%rip), %r18
        cmpq    \name@GOTPCREL(%rip), %r20
        movl    \name@GOTPCREL(%rip), %r21d
        movq    \name@GOTPCREL(%rip), %r13
        addq    \name@GOTPCREL(%rip), %r9, %r17
        addq    %r8, \name@GOTPCREL(%rip), %r16
        .endm
        .macro  thread name
        movq    \name@GOTTPOFF(%rip), %r16
        movq    \name@GOTTPOFF(%rip), %r24
        addq    \name@GOTTPOFF(%rip), %r19
        addq    \name@GOTTPOFF(%rip), %r8, %r16
        addq    \name@GOTTPOFF(%rip), %r12, %r13
        addq    %r8, \name@GOTTPOFF(%rip), %r16
        {nf} addq \name@GOTTPOFF(%rip), %r16
        {nf} addq \name@GOTTPOFF(%rip), %r8, %r16
        leaq    \name@TLSDESC(%rip), %r16
        leaq    \name@TLSDESC(%rip), %r28
        leaq    \name@TLSDESC(%rip), %rax
        .endm

        .set    local_absolute, 0x1234
        .text
        .globl  start
start:
        got     elsewhere
        got     absolute
        got     local_absolute
        got     local
        thread  elsewhere_thread
        thread  local_thread

        .data
local:  .quad   1
        .section .tdata, "awT", @progbits
local_thread:
        .long   7
