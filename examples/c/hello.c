/* The first C program, with the C library's printf. */
#include <stdio.h>

int main(void) {
    printf("Hello, %s!\n", "counterflow");
    return 0;
}
