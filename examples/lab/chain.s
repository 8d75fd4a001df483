# Three sums, each of which needs the one before.
        addi    x5, x0, 1
        addi    x5, x5, 1
        addi    x5, x5, 1
