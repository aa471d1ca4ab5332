/* Starts a program many times from one process: built as a shared library and given by LD_PRELOAD. Where `main` would begin it waits for
   requests on file 200, each a length and as many bytes of words that end with a zero. For each it begins `main` with these words in a
   process of its own, and answers on file 201 with that process's number and, once it has ended, with its status. So a start costs a fork:
   the program isn't loaded and linked anew. */
#define _GNU_SOURCE
#include <dlfcn.h>
#include <string.h>
#include <sys/wait.h>
#include <unistd.h>

enum { REQUESTS = 200, ANSWERS = 201, MOST_BYTES = 1 << 18 };

typedef int (*entry)(int, char **, char **);
typedef int (*start)(entry, int, char **, void (*)(void), void (*)(void), void (*)(void), void *);

static char text[MOST_BYTES];
/* The program's name, at most a word a byte, and the end. */
static char *words[MOST_BYTES + 2];

/* Takes so many bytes of the request, or ends where there is none. */
static void take(void *to, size_t count) {
    for (size_t at = 0; at < count;) {
        ssize_t taken = read(REQUESTS, (char *)to + at, count - at);
        if (taken <= 0) _exit(0);
        at += taken;
    }
}

static void tell(int number) {
    if (write(ANSWERS, &number, sizeof number) != sizeof number) _exit(1);
}

/* Takes the arguments of a request, which follow the program's name, and returns how many they are with that. */
static int take_words(char *program) {
    unsigned length;
    int count = 0;
    take(&length, sizeof length);
    if (length > MOST_BYTES) _exit(1);
    take(text, length);
    words[count++] = program;
    for (char *at = text; at < text + length; at += strlen(at) + 1) words[count++] = at;
    words[count] = 0;
    return count;
}

int __libc_start_main(entry main, int count, char **given, void (*init)(void), void (*fini)(void), void (*end)(void), void *stack) {
    start real = (start)dlsym(RTLD_NEXT, "__libc_start_main");
    char *program = given[0];
    for (;;) {
        int status, taken = take_words(program);
        pid_t pid = fork();
        if (pid == 0) {
            close(REQUESTS);
            close(ANSWERS);
            return real(main, taken, words, init, fini, end, stack);
        }
        if (pid < 0) _exit(1);
        tell(pid);
        if (waitpid(pid, &status, 0) != pid) _exit(1);
        tell(status);
    }
}
