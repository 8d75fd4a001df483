# Reads a line of at most 4096 bytes from the input and writes it reversed. A line feed at its end stays at the end.
# Ends with status 1 where the input does not fit.

    .globl _start
_start:
    li s2, 4096             # room for the line, and a byte to see whether there is more
    sub sp, sp, s2
    addi sp, sp, -16
    mv s0, sp               # where the line begins
    mv s1, s0               # where the next bytes go
    add s2, s0, s2
    addi s2, s2, 1          # where the room ends
more:
    beq s1, s2, too_long
    li a0, 0                # read(0, s1, s2 - s1)
    mv a1, s1
    sub a2, s2, s1
    li a7, 63
    ecall
    bltz a0, failed
    add s1, s1, a0
    bnez a0, more

    beq s1, s0, written     # nothing to be reversed
    mv t0, s0               # the first byte that is still to be swapped
    addi t1, s1, -1         # and the last one
    lbu t2, 0(t1)
    li t3, 10
    bne t2, t3, swap
    addi t1, t1, -1         # the line feed stays
swap:
    bgeu t0, t1, reversed
    lbu t2, 0(t0)
    lbu t3, 0(t1)
    sb t3, 0(t0)
    sb t2, 0(t1)
    addi t0, t0, 1
    addi t1, t1, -1
    j swap
reversed:
    li a0, 1                # write(1, s0, s1 - s0)
    mv a1, s0
    sub a2, s1, s0
    li a7, 64
    ecall
    bltz a0, failed
written:
    li a0, 0                # exit(0)
    li a7, 93
    ecall
failed:
too_long:
    li a0, 1                # exit(1)
    li a7, 93
    ecall
