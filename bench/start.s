# Calls main, and ends the program with its value.
    .globl _start
    .section .init, "ax"
_start:
    call main
    li a7, 93
    ecall
