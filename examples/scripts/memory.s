# A store and a load of the same word of the stack.
        sw      x2, -16(x2)
        lw      x3, -16(x2)
