/* Counts the lines, words and bytes of its input, and how often each letter stands in it, the most frequent first.
   riscv64-unknown-elf-gcc -march=rv32i -mabi=ilp32 -nostdlib -nostartfiles -ffreestanding -fno-builtin -Os -static -Wl,--build-id=none -s
   of gcc 12.2.0, with GNU as and ld 2.40, made the file beside it, and qemu-riscv32 7.2.22 what it has to write. */

typedef unsigned int word;

static inline int call(int number, int a, const void *b, word c) {
    register int x10 asm("a0") = a;
    register const void *x11 asm("a1") = b;
    register word x12 asm("a2") = c;
    register int x17 asm("a7") = number;
    asm volatile("ecall" : "+r"(x10) : "r"(x11), "r"(x12), "r"(x17) : "memory");
    return x10;
}

enum { READ = 63, WRITE = 64, EXIT = 93 };

struct counts { word lines, words, bytes; };
struct letter { char name; word times; };

static char buffer[512];
static struct letter letters[26];
static const char *const labels[] = { "lines ", "words ", "bytes " };

static void put(const char *text, word length) {
    call(WRITE, 1, text, length);
}

static void put_text(const char *text) {
    word length = 0;
    while (text[length]) length++;
    put(text, length);
}

/* No division: the digits are found by taking powers of ten away. */
static void put_number(word n) {
    static const word powers[] = { 1000000000, 100000000, 10000000, 1000000, 100000, 10000, 1000, 100, 10, 1 };
    char digits[11];
    word length = 0;
    for (word i = 0; i < 10; i++) {
        char digit = '0';
        while (n >= powers[i]) { n -= powers[i]; digit++; }
        if (digit != '0' || length || i == 9) digits[length++] = digit;
    }
    digits[length++] = '\n';
    put(digits, length);
}

static int is_blank(char c) {
    return c == ' ' || c == '\n' || c == '\t';
}

static void count(struct counts *all, char c, int *inside) {
    all->bytes++;
    all->lines += c == '\n';
    if (is_blank(c)) { *inside = 0; return; }
    if (!*inside) { all->words++; *inside = 1; }
    char lower = c | 32;
    if (lower >= 'a' && lower <= 'z') letters[lower - 'a'].times++;
}

static void sort(void) {
    for (int i = 1; i < 26; i++) {
        struct letter one = letters[i];
        int j = i;
        while (j > 0 && letters[j - 1].times < one.times) { letters[j] = letters[j - 1]; j--; }
        letters[j] = one;
    }
}

void _start(void) {
    struct counts all = { 0, 0, 0 };
    int inside = 0, taken;
    for (int i = 0; i < 26; i++) letters[i].name = 'a' + i;
    while ((taken = call(READ, 0, buffer, sizeof buffer)) > 0)
        for (int i = 0; i < taken; i++) count(&all, buffer[i], &inside);
    const word numbers[] = { all.lines, all.words, all.bytes };
    for (int i = 0; i < 3; i++) { put_text(labels[i]); put_number(numbers[i]); }
    sort();
    for (int i = 0; i < 26 && letters[i].times; i++) {
        char name[2] = { letters[i].name, ' ' };
        put(name, 2);
        put_number(letters[i].times);
    }
    call(EXIT, all.words > 255 ? 255 : (int)all.words, 0, 0);
}
