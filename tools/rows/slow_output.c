/* Takes one byte at each write to standard output, and fails at the Nth, N from FAIL_AT (0: at none): built as a shared library and given
   by LD_PRELOAD. */
#define _GNU_SOURCE
#include <dlfcn.h>
#include <errno.h>
#include <stdlib.h>
#include <unistd.h>

ssize_t write(int file, const void *bytes, size_t length) {
    static ssize_t (*real_write)(int, const void *, size_t);
    static unsigned long seen;
    if (!real_write) real_write = dlsym(RTLD_NEXT, "write");
    if (file != 1) return real_write(file, bytes, length);
    const char *word = getenv("FAIL_AT");
    if (++seen == (word ? strtoul(word, 0, 10) : 0)) {
        errno = EIO;
        return -1;
    }
    return real_write(file, bytes, length < 1 ? length : 1);
}
