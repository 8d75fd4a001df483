# Three sums that need nothing of one another.
        addi    x5, x0, 1
        addi    x6, x0, 2
        addi    x7, x0, 3
