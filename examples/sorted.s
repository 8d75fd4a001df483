# Sorts a table of numbers and writes them in decimal, one a line.
#
# The numbers are inserted one by one into an array on the stack: those already there that are greater move up by one.

    .globl _start
_start:
    mv s4, sp               # the end of the array
    addi sp, sp, -48        # room for twelve numbers
    mv s0, sp               # the array
    mv s3, s0               # where its sorted numbers end
    la s2, table            # the next number to be inserted
insert:
    lw t0, 0(s2)
    addi s2, s2, 4
    mv t1, s3
shift:
    beq t1, s0, place       # all are greater
    lw t2, -4(t1)
    bgeu t0, t2, place      # this one is not
    sw t2, 0(t1)
    addi t1, t1, -4
    j shift
place:
    sw t0, 0(t1)
    addi s3, s3, 4
    bne s3, s4, insert

    mv s3, s0
print:
    lw a0, 0(s3)
    call print_number
    addi s3, s3, 4
    bne s3, s4, print

    li a0, 0                # exit(0)
    li a7, 93
    ecall

# Writes the number in a0 in decimal, and a line feed.
print_number:
    addi sp, sp, -16        # room for ten digits and the line feed
    mv t0, sp               # where the next digit goes
    la t1, powers
    li t2, 0                # not 0 once a digit other than 0 was seen
digit:
    lw t3, 0(t1)            # how often does this power of ten go into what is left?
    beqz t3, last_digit
    addi t1, t1, 4
    li t4, 0
subtract:
    bltu a0, t3, subtracted
    sub a0, a0, t3
    addi t4, t4, 1
    j subtract
subtracted:
    or t2, t2, t4
    beqz t2, digit          # no zeros at the front
    addi t4, t4, 48         # the digit's character
    sb t4, 0(t0)
    addi t0, t0, 1
    j digit
last_digit:
    addi a0, a0, 48
    sb a0, 0(t0)
    li t4, 10
    sb t4, 1(t0)
    li a0, 1                # write(1, sp, t0 + 2 - sp)
    mv a1, sp
    addi a2, t0, 2
    sub a2, a2, sp
    li a7, 64
    ecall
    addi sp, sp, 16
    ret

table:
    .word 1994, 42, 4294967295, 7, 100, 0, 65536, 1000000000, 12, 42, 999999999, 3
powers:
    .word 1000000000, 100000000, 10000000, 1000000, 100000, 10000, 1000, 100, 10, 0
