# A branch that is taken, over a store. Then the program exits with 7.
        beq     x0, x0, over
        sw      x1, 0(x2)
over:   addi    x10, x0, 7
        addi    x17, x0, 93
        ecall
