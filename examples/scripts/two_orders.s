# The second instruction needs the x3 of the first.
        addi    x3, x0, 1
        addi    x4, x3, 1
