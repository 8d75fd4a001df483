# A store, and two loads behind it.
        sw      x2, -16(x2)
        lw      x3, -16(x2)
        lw      x4, -12(x2)
