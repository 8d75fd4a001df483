# A load that traps, and a store that is never reached.
        lw      x1, 0(x0)
        sw      x2, 0(x2)
