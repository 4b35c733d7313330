/* Maps a page at 0x10000000, writes `mov $42, %eax; ret` there, calls it, and ends with the answer. */
#include "start.inc"
    mov $9, %eax                    # mmap
    mov $0x10000000, %edi
    mov $4096, %esi
    mov $7, %edx                    # PROT_READ, PROT_WRITE, PROT_EXEC
    mov $0x32, %r10d                # MAP_PRIVATE, MAP_FIXED, MAP_ANONYMOUS
    mov $-1, %r8
    xor %r9d, %r9d
    syscall
    movabs $0xc30000002ab8, %rcx
    mov %rcx, (%rax)
    xor %eax, %eax
at: CALL
    exit %rax
