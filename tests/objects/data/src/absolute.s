# Absolute symbols: at both ends of 31 and 32 bits.
        .globl  absolute, large_absolute, negative_absolute, far_absolute
        .set    absolute, 0x7fffffff
        .set    large_absolute, 0x80000000
        .set    negative_absolute, -2
        .set    far_absolute, 0x100000000
