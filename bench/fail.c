/* A library to load before a program, by LD_PRELOAD. It fails one of the program's calls, or cuts it short: FAIL of the
   environment is `open`, `read` or `write` for an error, or `short` for a write or `brief` for a read of one byte, and
   NTH which of these calls, from 1. It says so on standard error. */
#define _GNU_SOURCE
#include <dlfcn.h>
#include <errno.h>
#include <fcntl.h>
#include <stdarg.h>
#include <stdlib.h>
#include <string.h>
#include <sys/types.h>
#include <unistd.h>

static ssize_t (*next_write)(int, const void *, size_t);

/* Whether this call of such a name is the one. */
static int is_the_one(const char *name)
{
    static const char said[] = "a call was failed\n";
    static const char *wanted;
    static long left = -1;
    if (left < 0) {
        const char *nth = getenv("NTH");
        wanted = getenv("FAIL");
        left = nth ? atol(nth) : 0;
        next_write = (ssize_t (*)(int, const void *, size_t))dlsym(RTLD_NEXT, "write");
    }
    if (left == 0 || !wanted || strcmp(wanted, name) || --left > 0)
        return 0;
    next_write(2, said, sizeof said - 1);
    return 1;
}

int open(const char *path, int flags, ...)
{
    static int (*next)(const char *, int, ...);
    va_list more;
    va_start(more, flags);
    mode_t mode = va_arg(more, mode_t);
    va_end(more);
    if (!next)
        next = (int (*)(const char *, int, ...))dlsym(RTLD_NEXT, "open");
    if (is_the_one("open")) {
        errno = EIO;
        return -1;
    }
    return next(path, flags, mode);
}

int openat(int folder, const char *path, int flags, ...)
{
    static int (*next)(int, const char *, int, ...);
    va_list more;
    va_start(more, flags);
    mode_t mode = va_arg(more, mode_t);
    va_end(more);
    if (!next)
        next = (int (*)(int, const char *, int, ...))dlsym(RTLD_NEXT, "openat");
    if (is_the_one("open")) {
        errno = EIO;
        return -1;
    }
    return next(folder, path, flags, mode);
}

ssize_t read(int file, void *bytes, size_t count)
{
    static ssize_t (*next)(int, void *, size_t);
    if (!next)
        next = (ssize_t (*)(int, void *, size_t))dlsym(RTLD_NEXT, "read");
    if (is_the_one("read")) {
        errno = EIO;
        return -1;
    }
    return next(file, bytes, count > 1 && is_the_one("brief") ? 1 : count);
}

ssize_t write(int file, const void *bytes, size_t count)
{
    if (is_the_one("write")) {
        errno = EIO;
        return -1;
    }
    return next_write(file, bytes, count > 1 && is_the_one("short") ? 1 : count);
}
