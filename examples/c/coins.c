/* In how many ways can an amount be paid with these coins? A table of coins, a recursion over it, and a table of what was
   found before. */
#include "environment.h"

enum { KINDS = 6, GREATEST = 50 };

static const int coins[KINDS] = { 1, 2, 5, 10, 20, 50 };
static int known[KINDS][GREATEST + 1];

/* The ways with the first `kinds` kinds of coins alone. */
static int ways(int amount, int kinds) {
    if (amount == 0) return 1;
    if (amount < 0 || kinds == 0) return 0;
    int *place = &known[kinds - 1][amount];
    if (!*place) *place = ways(amount, kinds - 1) + ways(amount - coins[kinds - 1], kinds);
    return *place;
}

static void write_number(int number, char end) {
    char digits[11];
    int at = sizeof digits;
    digits[--at] = end;
    do { digits[--at] = '0' + number % 10; number /= 10; } while (number);
    write_output(digits + at, sizeof digits - at);
}

int main(void) {
    for (int kind = 0; kind < KINDS; kind++) {
        write_number(coins[kind], ' ');
        write_number(ways(coins[kind], KINDS), '\n');
    }
    return 0;
}
