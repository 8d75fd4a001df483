# A load from an address that is not divisible by 4, and an instruction that must not happen.
        lw      x5, 2(x0)
        addi    x6, x0, 1
