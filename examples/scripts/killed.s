# The second instruction needs the x10 of the first, not the one that stands in the register file.
        addi    x10, x0, 3
        addi    x5, x10, 1
