// Has the call of a stream that ENDS_READ or ENDS_WRITE numbers fail, counted from 1 over reads, or over writes to the
// standard output, and where ENDS_SHORT is set each call takes one byte. Where ENDS_TOLD names a file, it is made when
// a call failed. Loaded by LD_PRELOAD; no part of any program.
#define _GNU_SOURCE
#include <dlfcn.h>
#include <errno.h>
#include <fcntl.h>
#include <stdlib.h>
#include <string.h>
#include <sys/stat.h>
#include <unistd.h>

static long reads = 0;
static long writes = 0;

static long number(const char *name) {
    const char *text = getenv(name);
    return text ? strtol(text, NULL, 10) : 0;
}

static int fails(long *count, const char *name) {
    if (__atomic_add_fetch(count, 1, __ATOMIC_SEQ_CST) != number(name)) {
        return 0;
    }
    const char *told = getenv("ENDS_TOLD");
    if (told) {
        int file = open(told, O_WRONLY | O_CREAT, 0600);
        if (file >= 0) {
            close(file);
        }
    }
    errno = EIO;
    return 1;
}

// What the program was given to read: its standard input, or a file that doesn't stand among the system's own.
static int is_input(int file) {
    static const char *own[] = {"/usr/", "/lib", "/etc/", "/proc/", "/sys/", "/dev/"};
    char link[64], path[4096];
    if (file == 0) {
        return 1;
    }
    strcpy(link, "/proc/self/fd/");
    char digits[12];
    int n = 0;
    for (int rest = file; rest > 0 && n < 11; rest /= 10) {
        digits[n++] = (char)('0' + rest % 10);
    }
    size_t at = strlen(link);
    while (n > 0) {
        link[at++] = digits[--n];
    }
    link[at] = 0;
    ssize_t size = readlink(link, path, sizeof path - 1);
    if (size < 0) {
        return 0;
    }
    path[size] = 0;
    for (size_t i = 0; i < sizeof own / sizeof *own; i++) {
        if (!strncmp(path, own[i], strlen(own[i]))) {
            return 0;
        }
    }
    return 1;
}

ssize_t read(int file, void *bytes, size_t size) {
    static ssize_t (*real)(int, void *, size_t);
    if (!real) {
        real = (ssize_t (*)(int, void *, size_t))dlsym(RTLD_NEXT, "read");
    }
    if (size > 0 && is_input(file)) {
        if (fails(&reads, "ENDS_READ")) {
            return -1;
        }
        if (getenv("ENDS_SHORT")) {
            size = 1;
        }
    }
    return real(file, bytes, size);
}

ssize_t write(int file, const void *bytes, size_t size) {
    static ssize_t (*real)(int, const void *, size_t);
    if (!real) {
        real = (ssize_t (*)(int, const void *, size_t))dlsym(RTLD_NEXT, "write");
    }
    if (size > 0 && file == 1) {
        if (fails(&writes, "ENDS_WRITE")) {
            return -1;
        }
        if (getenv("ENDS_SHORT")) {
            size = 1;
        }
    }
    return real(file, bytes, size);
}
