    .globl f, address_of_f
    .type f, @gnu_indirect_function
f:  lea target(%rip), %rax
    ret
target:
    ret
address_of_f:
at: lea f(%rip), %rax
    ret
