/* Stands before the C library of a program that tools/refusals starts: refuses its N-th request for memory (REFUSE=memory N),
   fails its N-th open, read or write (REFUSE=calls N), or has its N-th read or write of several bytes move one (REFUSE=short N).
   For tools/checking/process it cuts a file off after what was read of it, at the N-th read (REFUSE=lost N). Where any of
   this happened, a byte is written to the descriptor REFUSE_TOLD. */
#include <errno.h>
#include <fcntl.h>
#include <stdarg.h>
#include <stdio.h>
#include <stdlib.h>
#include <string.h>
#include <sys/syscall.h>
#include <unistd.h>

extern void *__libc_malloc(size_t size);
extern void *__libc_realloc(void *old, size_t size);

enum kind { NOTHING, MEMORY, CALLS, SHORT, LOST };

static enum kind kind;
static long left;

/* It runs before the program's main; what the C library asks for before that is not counted. */
__attribute__((constructor)) static void begin(void) {
    const char *refuse = getenv("REFUSE");
    if (refuse == NULL)
        return;
    const char *number = strchr(refuse, ' ');
    kind = refuse[0] == 'm' ? MEMORY : refuse[0] == 'c' ? CALLS : refuse[0] == 's' ? SHORT : LOST;
    left = number == NULL ? 0 : strtol(number, NULL, 10);
}

/* Whether this is the N-th of its kind. */
static int is_it(enum kind asked) {
    if (asked != kind || --left != 0)
        return 0;
    const char *told = getenv("REFUSE_TOLD");
    if (told != NULL)
        syscall(SYS_write, atoi(told), "!", 1);
    return 1;
}

void *malloc(size_t size) {
    return is_it(MEMORY) ? NULL : __libc_malloc(size);
}

void *realloc(void *old, size_t size) {
    return is_it(MEMORY) ? NULL : __libc_realloc(old, size);
}

static int fails(void) {
    if (!is_it(CALLS))
        return 0;
    errno = EIO;
    return 1;
}

int open(const char *name, int flags, ...) {
    va_list more;
    va_start(more, flags);
    int mode = flags & O_CREAT ? va_arg(more, int) : 0;
    va_end(more);
    return fails() ? -1 : (int)syscall(SYS_openat, AT_FDCWD, name, flags, mode);
}

static void cut(int file) {
    char name[40];
    snprintf(name, sizeof name, "/proc/self/fd/%d", file);
    if (truncate(name, lseek(file, 0, SEEK_CUR)) != 0)
        abort();
}

ssize_t read(int file, void *into, size_t size) {
    if (fails())
        return -1;
    if (is_it(LOST))
        cut(file);
    return syscall(SYS_read, file, into, size > 1 && is_it(SHORT) ? 1 : size);
}

ssize_t write(int file, const void *bytes, size_t size) {
    if (fails())
        return -1;
    return syscall(SYS_write, file, bytes, size > 1 && is_it(SHORT) ? 1 : size);
}
