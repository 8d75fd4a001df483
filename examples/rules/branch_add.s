# A branch over a sum.
        beq     x0, x0, 0x00010008
        addi    x1, x0, 1
