# Two sums, of which the second needs the first.
        addi    x1, x1, 1
        addi    x1, x1, 1
