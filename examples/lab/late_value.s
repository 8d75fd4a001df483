# A store that waits for its value, and a load of the same word behind it.
        addi    x5, x0, 1
        sw      x5, -16(x2)
        lw      x6, -16(x2)
