/* Code that is to load 0x1000, as the run gives it. */
#include "start.inc"
    xor %eax, %eax
at: CODE
    compare $0x1000, %rax
