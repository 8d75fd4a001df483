# Writes the Fibonacci numbers below 2^32 in decimal, one a line: 0, 1, 1, 2, 3, 5 and so on up to 2971215073.

    .globl _start
_start:
    li s0, 0                # the number that is written next
    li s1, 1                # and the one behind it
next:
    mv a0, s0
    call print_number
    add t0, s0, s1
    mv s0, s1
    mv s1, t0
    bgeu s1, s0, next       # a sum of 2^32 or more is less than its parts
    mv a0, s0               # the last one below 2^32
    call print_number

    li a0, 0                # exit(0)
    li a7, 93
    ecall

# Writes the number in a0 in decimal, and a line feed.
print_number:
    addi sp, sp, -16        # room for ten digits and the line feed
    mv t0, sp               # where the next digit goes
    la t1, powers
    li t2, 0                # not 0 once a digit other than 0 was seen
digit:
    lw t3, 0(t1)            # how often does this power of ten go into what is left?
    beqz t3, last_digit
    addi t1, t1, 4
    li t4, 0
subtract:
    bltu a0, t3, subtracted
    sub a0, a0, t3
    addi t4, t4, 1
    j subtract
subtracted:
    or t2, t2, t4
    beqz t2, digit          # no zeros at the front
    addi t4, t4, 48         # the digit's character
    sb t4, 0(t0)
    addi t0, t0, 1
    j digit
last_digit:
    addi a0, a0, 48
    sb a0, 0(t0)
    li t4, 10
    sb t4, 1(t0)
    li a0, 1                # write(1, sp, t0 + 2 - sp)
    mv a1, sp
    addi a2, t0, 2
    sub a2, a2, sp
    li a7, 64
    ecall
    addi sp, sp, 16
    ret

powers:
    .word 1000000000, 100000000, 10000000, 1000000, 100000, 10000, 1000, 100, 10, 0
