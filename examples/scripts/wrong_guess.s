# A branch that is taken, over a store.
        beq     x0, x0, over
        sw      x1, 0(x2)
over:   addi    x3, x0, 1
