# Counts the primes below 200,000 with the sieve of Eratosthenes, thirty times over, and ends with the low byte of the
# count: 17984 is 64 more than 70 times 256. A byte for each number stands on the stack: 0 while it may be a prime.

    .globl _start
_start:
    li s0, 200000           # the numbers below this are sieved
    li s1, 30               # passes that are left
    sub s2, sp, s0          # the byte of 0
    andi s2, s2, -16
    add s3, s2, s0          # after the last byte
pass:
    mv t0, s2
clear:
    sw zero, 0(t0)
    addi t0, t0, 4
    bltu t0, s3, clear

    li a0, 0                # the primes so far
    li t1, 2                # the number that is looked at
number:
    add t0, s2, t1
    lbu t2, 0(t0)
    bnez t2, next
    addi a0, a0, 1
    add t0, t0, t1          # its multiples, from twice itself on
    bgeu t0, s3, next
    li t3, 1
multiple:
    sb t3, 0(t0)
    add t0, t0, t1
    bltu t0, s3, multiple
next:
    addi t1, t1, 1
    bltu t1, s0, number

    addi s1, s1, -1
    bnez s1, pass
    li a7, 93
    ecall
