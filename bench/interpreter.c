/* A plain interpreter of RV32I programs, for comparison: flat images, the environment calls exit, read, write and brk,
   and the report that `cfpp machine` writes. Usage: interpreter PROGRAM [LIMIT] */
#include <stdint.h>
#include <stdio.h>
#include <stdlib.h>
#include <string.h>
#include <unistd.h>

enum { IMAGE = 0x10000, STACK = 0x7f000000, STACK_SIZE = 0x100000, HEAP_END = 0x7f080000 };

struct region {
    uint32_t base, size;
    uint8_t *bytes;
};

static struct region regions[2];
static uint32_t pc = IMAGE, x[32], program_break = STACK;
static uint64_t retired;

/* Where the bytes of the range are held, or a null pointer where they do not lie in one region. */
static inline uint8_t *range(uint32_t addr, uint32_t len) {
    for (int i = 0; i < 2; i++) {
        uint32_t offset = addr - regions[i].base;
        if (offset < regions[i].size && regions[i].size - offset >= len)
            return regions[i].bytes + offset;
    }
    return NULL;
}

static _Noreturn void finish(const char *report, int status) {
    fprintf(stderr, "%s\nretired %llu\n", report, (unsigned long long)retired);
    for (int i = 0; i < 32; i++)
        fprintf(stderr, "x%02d=%08x%c", i, x[i], i % 4 == 3 ? '\n' : ' ');
    exit(status);
}

static _Noreturn void trap(int cause, uint32_t detail) {
    char report[64];
    snprintf(report, sizeof report, "trap %d at %08x detail %08x", cause, pc, detail);
    finish(report, 120);
}

static _Noreturn void stop(const char *report, int status) {
    fprintf(stderr, "%s\n", report);
    exit(status);
}

static uint32_t call_read(uint32_t fd, uint32_t addr, uint32_t len) {
    if (fd != 0)
        return -9;
    uint8_t *buffer = range(addr, len);
    if (len == 0)
        return 0;
    if (!buffer)
        return -14;
    uint32_t done = 0;
    while (done < len) {
        ssize_t n = read(0, buffer + done, len - done);
        if (n < 0)
            finish("read fault input", 128);
        if (n == 0)
            break;
        done += n;
    }
    return done;
}

static uint32_t call_write(uint32_t fd, uint32_t addr, uint32_t len) {
    if (fd != 1 && fd != 2)
        return -9;
    uint8_t *buffer = range(addr, len);
    if (len == 0)
        return 0;
    if (!buffer)
        return -14;
    for (uint32_t done = 0; done < len;) {
        ssize_t n = write(1, buffer + done, len - done);
        if (n <= 0)
            finish("write fault output", 129);
        done += n;
    }
    return len;
}

static void environment_call(void) {
    char report[16];
    switch (x[17]) {
    case 63: x[10] = call_read(x[10], x[11], x[12]); break;
    case 64: x[10] = call_write(x[10], x[11], x[12]); break;
    case 93:
    case 94:
        snprintf(report, sizeof report, "exit %d", x[10] & 255);
        finish(report, x[10] & 255);
    case 214:
        if (x[10] >= STACK && x[10] <= HEAP_END)
            program_break = x[10];
        x[10] = program_break;
        break;
    default: x[10] = -38;
    }
}

static inline uint32_t load(uint32_t funct3, uint32_t addr) {
    uint32_t width = 1u << (funct3 & 3);
    if (addr & (width - 1))
        trap(4, addr);
    uint8_t *bytes = range(addr, width);
    if (!bytes)
        trap(5, addr);
    uint16_t half;
    uint32_t word;
    switch (funct3) {
    case 0: return (int8_t)*bytes;
    case 1: memcpy(&half, bytes, 2); return (int16_t)half;
    case 2: memcpy(&word, bytes, 4); return word;
    case 4: return *bytes;
    default: memcpy(&half, bytes, 2); return half;
    }
}

static inline void store(uint32_t funct3, uint32_t addr, uint32_t value) {
    uint32_t width = 1u << funct3;
    if (addr & (width - 1))
        trap(6, addr);
    uint8_t *bytes = range(addr, width);
    if (!bytes)
        trap(7, addr);
    switch (funct3) {
    case 0: *bytes = value; break;
    case 1: memcpy(bytes, &value, 2); break;
    default: memcpy(bytes, &value, 4);
    }
}

static inline int branches(uint32_t funct3, uint32_t a, uint32_t b) {
    switch (funct3) {
    case 0: return a == b;
    case 1: return a != b;
    case 4: return (int32_t)a < (int32_t)b;
    case 5: return (int32_t)a >= (int32_t)b;
    case 6: return a < b;
    default: return a >= b;
    }
}

/* The result of an operation; `alternative` chooses SUB over ADD, and SRA over SRL. */
static inline uint32_t operate(uint32_t funct3, int alternative, uint32_t a, uint32_t b) {
    switch (funct3) {
    case 0: return alternative ? a - b : a + b;
    case 1: return a << (b & 31);
    case 2: return (int32_t)a < (int32_t)b;
    case 3: return a < b;
    case 4: return a ^ b;
    case 5: return alternative ? (uint32_t)((int32_t)a >> (b & 31)) : a >> (b & 31);
    case 6: return a | b;
    default: return a & b;
    }
}

static inline void step(void) {
    if (pc & 3)
        trap(0, pc);
    uint8_t *code = range(pc, 4);
    if (!code)
        trap(1, pc);
    uint32_t word;
    memcpy(&word, code, 4);
    uint32_t rd = word >> 7 & 31, funct3 = word >> 12 & 7, funct7 = word >> 25;
    uint32_t a = x[word >> 15 & 31], b = x[word >> 20 & 31];
    uint32_t imm = (int32_t)word >> 20, next = pc + 4, result;
    switch (word & 127) {
    case 0x37: result = word & 0xfffff000; break;
    case 0x17: result = pc + (word & 0xfffff000); break;
    case 0x6f:
        result = next;
        next = pc + ((uint32_t)((int32_t)word >> 31 << 20) | (word & 0xff000) | (word >> 9 & 0x800) | (word >> 20 & 0x7fe));
        break;
    case 0x67:
        if (funct3 != 0)
            trap(2, word);
        result = next;
        next = (a + imm) & ~1u;
        break;
    case 0x63:
        if (funct3 == 2 || funct3 == 3)
            trap(2, word);
        if (branches(funct3, a, b))
            next = pc + ((uint32_t)((int32_t)word >> 31 << 12) | (word << 4 & 0x800) | (word >> 20 & 0x7e0) | (word >> 7 & 0x1e));
        rd = 0;
        break;
    case 0x03:
        if (funct3 == 3 || funct3 > 5)
            trap(2, word);
        result = load(funct3, a + imm);
        break;
    case 0x23:
        if (funct3 > 2)
            trap(2, word);
        store(funct3, a + ((imm & ~31u) | rd), b);
        rd = 0;
        break;
    case 0x13:
        if ((funct3 == 1 && funct7 != 0) || (funct3 == 5 && (funct7 & 0x5f) != 0))
            trap(2, word);
        result = operate(funct3, funct3 == 5 && funct7 != 0, a, imm);
        break;
    case 0x33:
        if (funct7 != 0 && !(funct7 == 0x20 && (funct3 == 0 || funct3 == 5)))
            trap(2, word);
        result = operate(funct3, funct7 != 0, a, b);
        break;
    case 0x0f:
        if (funct3 > 1)
            trap(2, word);
        rd = 0;
        break;
    case 0x73:
        if (word == 0x00100073)
            trap(3, pc);
        if (word != 0x00000073)
            trap(2, word);
        environment_call();
        rd = 0;
        break;
    default: trap(2, word);
    }
    if (next & 3)
        trap(0, next);
    if (rd)
        x[rd] = result;
    pc = next;
    retired++;
}

int main(int count, char **words) {
    static uint8_t stack[STACK_SIZE];
    uint64_t limit = count > 2 ? strtoull(words[2], NULL, 10) : 10000000;
    FILE *file = count > 1 ? fopen(words[1], "rb") : NULL;
    if (!file)
        stop("read fault program", 128);
    uint8_t *image = malloc(1 << 25);
    uint32_t size = image ? fread(image, 1, 1 << 25, file) : 0;
    regions[0] = (struct region){IMAGE, size, image};
    regions[1] = (struct region){STACK, STACK_SIZE, stack};
    x[2] = STACK + STACK_SIZE - 16;
    while (retired < limit)
        step();
    char report[32];
    snprintf(report, sizeof report, "limit %llu", (unsigned long long)limit);
    finish(report, 121);
}
