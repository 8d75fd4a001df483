# Where a C program begins: calls main, and ends the program with its value. The stack is ready, and all other variables are zero.
# With LIBC defined it hands over to `start_libc`, which needs the address of the thread's variables in tp.
    .file   "start.s"
    .section .init, "ax"
    .globl _start
_start:
    .option push
    .option norelax
    la      gp, __global_pointer$
    .option pop
    .ifdef LIBC
    la      tp, __thread_variables
    call    start_libc
    .endif
    call    main
    li      a7, 93
    ecall
