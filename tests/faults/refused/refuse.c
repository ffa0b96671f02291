// Refuses the growth that the variable REFUSE_GROWTH numbers, counted from 1 over malloc and realloc of all threads,
// and no other. Where REFUSE_TOLD names a file, it is made when a growth was refused. Where BLOCKS_TOLD names a file,
// it is given, at the program's end, how many blocks were asked for, how many were given back, and how many bytes stood
// in blocks at most. Loaded by LD_PRELOAD; no part of any program.
#define _GNU_SOURCE
#include <dlfcn.h>
#include <errno.h>
#include <fcntl.h>
#include <malloc.h>
#include <stdio.h>
#include <stdlib.h>
#include <unistd.h>

static long refused = -1;
static long growths = 0;
static long asked = 0;
static long given_back = 0;
static long standing = 0;
static long most = 0;

static long add(long *number, long more) {
    return __atomic_add_fetch(number, more, __ATOMIC_SEQ_CST);
}

// The first growth comes before any thread is started.
static int refuses(void) {
    if (refused == -1) {
        const char *number = getenv("REFUSE_GROWTH");
        refused = number ? strtol(number, NULL, 10) : 0;
    }
    if (add(&growths, 1) != refused) {
        return 0;
    }
    const char *told = getenv("REFUSE_TOLD");
    if (told) {
        int file = open(told, O_WRONLY | O_CREAT, 0600);
        if (file >= 0) {
            close(file);
        }
    }
    errno = ENOMEM;
    return 1;
}

static void stands(long bytes) {
    long now = add(&standing, bytes);
    long before = __atomic_load_n(&most, __ATOMIC_SEQ_CST);
    while (before < now && !__atomic_compare_exchange_n(&most, &before, now, 0, __ATOMIC_SEQ_CST, __ATOMIC_SEQ_CST)) {
    }
}

static void *counted(void *block) {
    add(&asked, block != NULL);
    stands((long)malloc_usable_size(block));
    return block;
}

void *malloc(size_t size) {
    static void *(*real)(size_t);
    if (!real) {
        real = (void *(*)(size_t))dlsym(RTLD_NEXT, "malloc");
    }
    return refuses() ? NULL : counted(real(size));
}

void *realloc(void *old, size_t size) {
    static void *(*real)(void *, size_t);
    if (!real) {
        real = (void *(*)(void *, size_t))dlsym(RTLD_NEXT, "realloc");
    }
    if (refuses()) {
        return NULL;
    }
    if (!old) {
        return counted(real(old, size));
    }
    long before = (long)malloc_usable_size(old);
    void *block = real(old, size);
    if (block) {
        stands((long)malloc_usable_size(block) - before);
    }
    return block;
}

void free(void *block) {
    static void (*real)(void *);
    if (!real) {
        real = (void (*)(void *))dlsym(RTLD_NEXT, "free");
    }
    add(&given_back, block != NULL);
    add(&standing, -(long)malloc_usable_size(block));
    real(block);
}

__attribute__((destructor)) static void tell(void) {
    const char *told = getenv("BLOCKS_TOLD");
    int file = told ? open(told, O_WRONLY | O_CREAT | O_TRUNC, 0600) : -1;
    if (file >= 0) {
        char line[128];
        int length =
            snprintf(line, sizeof line, "%ld asked for, %ld given back, %ld bytes at most\n", asked, given_back, most);
        if (write(file, line, (size_t)length) != length) {
            abort();
        }
        close(file);
    }
}

// A program that may start threads ends by this call, behind which no destructor runs.
void _exit(int status) {
    void (*real)(int) = (void (*)(int))dlsym(RTLD_NEXT, "_exit");
    tell();
    real(status);
    abort();
}
