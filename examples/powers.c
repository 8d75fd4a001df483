/* Writes the powers of 3 modulo some numbers, with multiplication and division of the M extension.
   riscv64-unknown-elf-gcc -march=rv32im -mabi=ilp32 -nostdlib -nostartfiles -ffreestanding -fno-builtin -Os -static -Wl,--build-id=none -s
   of gcc 12.2.0, with GNU as and ld 2.40, made the file beside it, and qemu-riscv32 7.2.22 what it has to write. */

typedef unsigned int word;

static inline int call(int number, int a, const void *b, word c) {
    register int x10 asm("a0") = a;
    register const void *x11 asm("a1") = b;
    register word x12 asm("a2") = c;
    register int x17 asm("a7") = number;
    asm volatile("ecall" : "+r"(x10) : "r"(x11), "r"(x12), "r"(x17) : "memory");
    return x10;
}

enum { WRITE = 64, EXIT = 93 };

static void put_number(word n, char end) {
    char digits[11];
    word at = 10;
    digits[at] = end;
    do { digits[--at] = '0' + n % 10; n /= 10; } while (n);
    call(WRITE, 1, digits + at, 11 - at);
}

static word power(word base, word exponent, word modulus) {
    word result = 1 % modulus;
    while (exponent) {
        if (exponent & 1) result = result * base % modulus;
        base = base * base % modulus;
        exponent >>= 1;
    }
    return result;
}

void _start(void) {
    static const word moduli[] = { 7, 97, 1009, 4093, 65521 };
    word sum = 0;
    for (word i = 0; i < 5; i++)
        for (word e = 1; e <= 4; e++) {
            word p = power(3, e * e * e * 37, moduli[i]);
            put_number(p, e == 4 ? '\n' : ' ');
            sum += p;
        }
    int quotient = -(int)sum / 7, remainder = -(int)sum % 7;
    put_number(quotient * 7 + remainder == -(int)sum, '\n');
    call(EXIT, sum % 251, 0, 0);
}
