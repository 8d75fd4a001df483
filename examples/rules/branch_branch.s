# A branch over another one.
        beq     x0, x0, 0x00010008
        beq     x0, x0, 0x0001000c
