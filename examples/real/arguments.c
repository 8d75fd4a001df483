/* Calls a program's main with the arguments of the Makefile, since cfpp gives it none: the linker's `--wrap=main` puts this before it. */
#include <stddef.h>

extern int __real_main(int count, char **arguments);

int __wrap_main(void) {
    static char *arguments[] = { ARGUMENTS, NULL };
    return __real_main(sizeof arguments / sizeof *arguments - 1, arguments);
}
