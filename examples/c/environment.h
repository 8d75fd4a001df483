/* The calls of the environment, as docs/MANUAL.md has them. A negative answer is an error, with Linux's number.
   A program with these alone runs under `cfpp` and under Linux, and so under qemu-riscv32. */
#ifndef ENVIRONMENT_H
#define ENVIRONMENT_H

enum { CALL_READ = 63, CALL_WRITE = 64, CALL_EXIT = 93, CALL_BRK = 214 };

static inline int environment_call(int number, int first, int second, int third) {
    register int x10 asm("a0") = first;
    register int x11 asm("a1") = second;
    register int x12 asm("a2") = third;
    register int x17 asm("a7") = number;
    asm volatile("ecall" : "+r"(x10) : "r"(x11), "r"(x12), "r"(x17) : "memory");
    return x10;
}

/* Reads up to `length` bytes of the input, and answers their number: 0 at its end. Under `cfpp` fewer than asked for
   come only at the end. */
static inline int read_input(void *bytes, int length) {
    return environment_call(CALL_READ, 0, (int)bytes, length);
}

/* Writes `length` bytes to the output, and answers their number. */
static inline int write_output(const void *bytes, int length) {
    return environment_call(CALL_WRITE, 1, (int)bytes, length);
}

/* Ends the program with a status from 0 to 255; so does a return from `main`. */
static inline _Noreturn void exit_program(int status) {
    environment_call(CALL_EXIT, status, 0, 0);
    __builtin_unreachable();
}

/* Sets the end of the heap and answers it; 0 asks where it is. Under `cfpp` the heap has 512 KiB, from 7f000000 on. */
static inline char *set_break(char *end) {
    return (char *)environment_call(CALL_BRK, (int)end, 0, 0);
}

#endif
