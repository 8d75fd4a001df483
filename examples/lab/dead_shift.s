# A branch that is taken, over a shift.
        beq     x0, x0, over
        slli    x1, x0, 1
over:   addi    x3, x0, 1
