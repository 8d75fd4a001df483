# An environment call that there is not, since x17 is 0.
        ecall
