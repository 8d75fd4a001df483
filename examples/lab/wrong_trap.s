# A branch that is taken, over an instruction that would end the program.
        beq     x0, x0, over
        ebreak
over:   addi    x3, x0, 1
