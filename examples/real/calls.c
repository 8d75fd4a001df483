/* What these programs and picolibc name of POSIX and cfpp does not have: each call says so, and no stream is a terminal. */
#include <errno.h>

#define MISSING(call) int call() { errno = ENOSYS; return -1; }

MISSING(close) MISSING(fchmod) MISSING(fchown) MISSING(getpid) MISSING(gettimeofday) MISSING(kill) MISSING(lseek) MISSING(lstat)
MISSING(open) MISSING(rename) MISSING(stat) MISSING(times) MISSING(unlink) MISSING(utime)

int isatty() { return 0; }
