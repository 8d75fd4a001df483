# It sets x1, and needs no source.
        addi    x1, x0, 1
