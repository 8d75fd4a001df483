# The 32nd Fibonacci number by its definition, each sum by two calls, and ends with its low byte: 2178309 is 5 more than
# 8509 times 256. Calls, returns, and what they keep on the stack.

    .globl _start
_start:
    li a0, 32
    call fibonacci
    li a7, 93
    ecall

# The Fibonacci number of the index in a0, in a0.
fibonacci:
    li t0, 2
    bltu a0, t0, itself     # 0 and 1 are their own
    addi sp, sp, -16
    sw ra, 12(sp)
    sw s0, 8(sp)
    mv s0, a0
    addi a0, s0, -1
    call fibonacci
    sw a0, 4(sp)
    addi a0, s0, -2
    call fibonacci
    lw t0, 4(sp)
    add a0, a0, t0
    lw s0, 8(sp)
    lw ra, 12(sp)
    addi sp, sp, 16
itself:
    ret
