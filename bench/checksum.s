# The CRC-32 of 65,536 bytes, bit by bit, 24 times over, and ends with its low byte. The bytes are the high bytes of the
# numbers n := 69069 n + 1, and stand on the stack. Mostly shifts and operations on registers.

    .globl _start
_start:
    li s0, 65536            # how many bytes
    li s1, 24               # passes that are left
    sub s2, sp, s0          # the first byte
    li s4, 0xedb88320       # the polynomial, its lowest power first

    li t0, 1                # n
    mv t1, s2
    add s3, s2, s0          # after the last byte
fill:
    slli t2, t0, 2          # 69069 is 65536 + 4096 - 512 - 64 + 8 + 4 + 1
    add t3, t0, t2
    slli t2, t0, 3
    add t3, t3, t2
    slli t2, t0, 6
    sub t3, t3, t2
    slli t2, t0, 9
    sub t3, t3, t2
    slli t2, t0, 12
    add t3, t3, t2
    slli t2, t0, 16
    add t3, t3, t2
    addi t0, t3, 1
    srli t2, t0, 24
    sb t2, 0(t1)
    addi t1, t1, 1
    bltu t1, s3, fill

pass:
    li a0, -1               # the remainder
    mv t1, s2
byte:
    lbu t2, 0(t1)
    addi t1, t1, 1
    xor a0, a0, t2
    li t3, 8                # bits that are left
bit:
    andi t4, a0, 1
    srli a0, a0, 1
    beqz t4, shifted
    xor a0, a0, s4
shifted:
    addi t3, t3, -1
    bnez t3, bit
    bltu t1, s3, byte
    not a0, a0
    addi s1, s1, -1
    bnez s1, pass
    li a7, 93
    ecall
