# Two traps: the first is found out late, when the load is launched, the second at once, when it is fetched.
        lw      x5, 2(x0)
        ebreak
