# The second instruction needs the value of the first.
        addi    x1, x0, 1
        addi    x1, x1, 1
