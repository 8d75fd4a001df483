# A store, at the stack pointer.
        sw      x2, 0(x2)
