# A branch over a store.
        beq     x0, x0, 0x00010008
        sw      x2, 0(x2)
