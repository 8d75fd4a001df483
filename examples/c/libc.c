/* What picolibc needs of a system: its start, its streams, and the calls that these make. INPUT is how many bytes one read of the input
   asks for: under `cfpp` a read waits for all of them, so that with 1 the input may be typed. */
#include "environment.h"
#include <errno.h>
#include <stdio.h>
#include <stdio-bufio.h>
#include <stdlib.h>
#include <unistd.h>

extern int main(int count, char **arguments);
extern void __libc_init_array(void);

static ssize_t answered(int answer) {
    if (answer >= 0) return answer;
    errno = -answer;
    return -1;
}

ssize_t read(int stream, void *bytes, size_t length) { return answered(environment_call(CALL_READ, stream, (int)bytes, length)); }
ssize_t write(int stream, const void *bytes, size_t length) { return answered(environment_call(CALL_WRITE, stream, (int)bytes, length)); }
_Noreturn void _exit(int status) { exit_program(status); }

/* What malloc gives out, from here to the linker's `__heap_end`. */
char __heap_start[HEAP] __attribute__((section(".heap,\"aw\",@nobits#"), aligned(16)));

static char typed[INPUT], line[512], letter[1];
/* The output is written line by line and before each read of the input, errors letter by letter. */
static struct __file_bufio input = FDEV_SETUP_BUFIO(0, typed, sizeof typed, read, write, NULL, NULL, _FDEV_SETUP_READ, 0);
static struct __file_bufio output = FDEV_SETUP_BUFIO(1, line, sizeof line, read, write, NULL, NULL, _FDEV_SETUP_WRITE, __BLBF);
static struct __file_bufio errors = FDEV_SETUP_BUFIO(2, letter, 1, read, write, NULL, NULL, _FDEV_SETUP_WRITE, 0);
FILE *const stdin = &input.xfile.cfile.file, *const stdout = &output.xfile.cfile.file, *const stderr = &errors.xfile.cfile.file;

static void flush_output(void) { fflush(stdout); }

/* Runs main with one argument, which is empty, then what atexit was given, and last writes the output's rest. */
_Noreturn void start_libc(void) {
    static char *arguments[] = { "", NULL };
    atexit(flush_output);
    __libc_init_array();
    exit(main(1, arguments));
}
