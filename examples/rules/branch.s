# A branch that is taken, past the end of the program.
        beq     x0, x0, 0x00010008
