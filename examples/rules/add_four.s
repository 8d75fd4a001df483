# It adds 4 to the stack pointer, which is not 0.
        addi    x2, x2, 4
