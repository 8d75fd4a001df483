# A branch that is taken, and behind it a jump that the program never reaches.
        beq     x0, x0, far
        jal     x0, near
        addi    x0, x0, 0
near:   addi    x3, x0, 1
far:    addi    x4, x0, 1
