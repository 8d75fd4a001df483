# A branch over a load that would trap.
        beq     x0, x0, 0x00010008
        lw      x1, 0(x0)
