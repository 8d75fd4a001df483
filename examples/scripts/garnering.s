# Two instructions that count x1 up: the second needs what the first computes.
        addi    x1, x1, 1
        addi    x1, x1, 1
