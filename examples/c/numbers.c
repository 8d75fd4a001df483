/* Reads whole numbers, one per line, and writes how many there are, their sum, the least, the greatest and the mean, rounded
   toward zero. It reads byte by byte, so that its input may be typed: a longer read would wait until its buffer is full. */
#include "environment.h"

struct summary { int count, sum, least, greatest; };

static int text_length(const char *text) {
    int length = 0;
    while (text[length]) length++;
    return length;
}

static void write_line(const char *name, int number) {
    char digits[12];
    int at = sizeof digits;
    unsigned size = number < 0 ? -(unsigned)number : (unsigned)number;
    digits[--at] = '\n';
    do { digits[--at] = '0' + size % 10; size /= 10; } while (size);
    write_output(name, text_length(name));
    if (number < 0) write_output("-", 1);
    write_output(digits + at, sizeof digits - at);
}

/* The next number; 0 at the end of the input, where there is none. */
static int read_number(int *number) {
    char byte;
    int negative = 0, digits = 0;
    *number = 0;
    while (read_input(&byte, 1) == 1) {
        if (byte == '-') negative = 1;
        else if (byte >= '0' && byte <= '9') { *number = *number * 10 + (byte - '0'); digits++; }
        else if (digits) break;
        else negative = 0;
    }
    if (negative) *number = -*number;
    return digits > 0;
}

static void add(struct summary *all, int number) {
    if (!all->count || number < all->least) all->least = number;
    if (!all->count || number > all->greatest) all->greatest = number;
    all->sum += number;
    all->count++;
}

int main(void) {
    struct summary all = { 0, 0, 0, 0 };
    int number;
    while (read_number(&number)) add(&all, number);
    write_line("count    ", all.count);
    if (!all.count) return 1;
    write_line("sum      ", all.sum);
    write_line("least    ", all.least);
    write_line("greatest ", all.greatest);
    write_line("mean     ", all.sum / all.count);
    return 0;
}
