# It adds 1 to x1.
        addi    x1, x1, 1
