/* Lets standard input or standard output fail after so many bytes: READ_FAILS and WRITE_FAILS say after how many. Loaded
   before the C library by LD_PRELOAD:

   cc -O2 -shared -fPIC -o fail_io.so fail_io.c */

#define _GNU_SOURCE
#include <dlfcn.h>
#include <errno.h>
#include <stdlib.h>
#include <unistd.h>

static long left_in(const char *name)
{
    const char *bytes = getenv(name);
    return bytes ? atol(bytes) : -1;
}

/* Returns how many of these bytes may pass, of those that are left: all, if none is to fail. */
static size_t passing(long left, size_t size)
{
    return left >= 0 && (size_t)left < size ? (size_t)left : size;
}

ssize_t read(int file, void *bytes, size_t size)
{
    static ssize_t (*original)(int, void *, size_t);
    static long left = -2;
    if (!original)
        original = (ssize_t(*)(int, void *, size_t))dlsym(RTLD_NEXT, "read");
    if (file != STDIN_FILENO)
        return original(file, bytes, size);
    if (left == -2)
        left = left_in("READ_FAILS");
    if (left == 0 && size > 0) {
        errno = EIO;
        return -1;
    }
    ssize_t got = original(file, bytes, passing(left, size));
    if (left > 0 && got > 0)
        left -= got;
    return got;
}

ssize_t write(int file, const void *bytes, size_t size)
{
    static ssize_t (*original)(int, const void *, size_t);
    static long left = -2;
    if (!original)
        original = (ssize_t(*)(int, const void *, size_t))dlsym(RTLD_NEXT, "write");
    if (file != STDOUT_FILENO)
        return original(file, bytes, size);
    if (left == -2)
        left = left_in("WRITE_FAILS");
    if (left == 0 && size > 0) {
        errno = EIO;
        return -1;
    }
    ssize_t put = original(file, bytes, passing(left, size));
    if (left > 0 && put > 0)
        left -= put;
    return put;
}
