/* Refuses the Nth growth of a program, N from REFUSE_MEMORY: built as a shared library and given by LD_PRELOAD.
   When it does, it says so on standard error, in a line of its own: a program that ends by a signal afterwards has said it.
   Where REFUSE_BETWEEN is set, only growths between a line `ready` and a line `done` of standard output count. */
#define _GNU_SOURCE
#include <dlfcn.h>
#include <stdlib.h>
#include <string.h>
#include <sys/uio.h>
#include <unistd.h>

static unsigned long wanted, seen;
static int counts = 1;
static char line[8];
static size_t length;
static void *(*real_malloc)(size_t), *(*real_realloc)(void *, size_t), *(*real_aligned)(size_t, size_t);
static ssize_t (*real_write)(int, const void *, size_t), (*real_writev)(int, const struct iovec *, int);

__attribute__((constructor)) static void begin(void) {
    const char *word = getenv("REFUSE_MEMORY");
    real_malloc = dlsym(RTLD_NEXT, "malloc");
    real_realloc = dlsym(RTLD_NEXT, "realloc");
    real_aligned = dlsym(RTLD_NEXT, "aligned_alloc");
    real_write = dlsym(RTLD_NEXT, "write");
    real_writev = dlsym(RTLD_NEXT, "writev");
    wanted = word ? strtoul(word, 0, 10) : 0;
    counts = !getenv("REFUSE_BETWEEN");
    seen = 0;
}

static int is_refused(void) {
    if (!wanted || !counts || ++seen != wanted) return 0;
    if (real_write(2, "growth refused\n", 15) < 0) _exit(3);
    return 1;
}

/* Follows the lines that are printed: a long one is kept as far as the buffer goes, and is neither word. */
static void follow(const char *from, size_t count) {
    for (size_t at = 0; at < count; at++) {
        if (from[at] != '\n') {
            if (length < sizeof line) line[length++] = from[at];
            continue;
        }
        if (length == 5 && !memcmp(line, "ready", 5)) counts = 1;
        if (length == 4 && !memcmp(line, "done", 4)) counts = 0;
        length = 0;
    }
}

ssize_t write(int file, const void *from, size_t count) {
    ssize_t taken = real_write(file, from, count);
    if (file == 1 && taken > 0 && getenv("REFUSE_BETWEEN")) follow(from, taken);
    return taken;
}

ssize_t writev(int file, const struct iovec *parts, int count) {
    ssize_t taken = real_writev(file, parts, count), left = taken;
    for (int at = 0; file == 1 && at < count && left > 0 && getenv("REFUSE_BETWEEN"); at++) {
        size_t here = parts[at].iov_len < (size_t)left ? parts[at].iov_len : (size_t)left;
        follow(parts[at].iov_base, here);
        left -= here;
    }
    return taken;
}

void *malloc(size_t size) {
    if (!real_malloc) real_malloc = dlsym(RTLD_NEXT, "malloc");
    return is_refused() ? 0 : real_malloc(size);
}

void *realloc(void *from, size_t size) {
    if (!real_realloc) real_realloc = dlsym(RTLD_NEXT, "realloc");
    return is_refused() ? 0 : real_realloc(from, size);
}

void *aligned_alloc(size_t alignment, size_t size) {
    if (!real_aligned) real_aligned = dlsym(RTLD_NEXT, "aligned_alloc");
    return is_refused() ? 0 : real_aligned(alignment, size);
}
