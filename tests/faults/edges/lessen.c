// Gives each thread a quarter of the stack that the program asks for, and writes what was asked for into the file that
// STACK_TOLD names. Loaded by LD_PRELOAD; no part of any program.
#define _GNU_SOURCE
#include <dlfcn.h>
#include <pthread.h>
#include <stdio.h>
#include <stdlib.h>

int pthread_attr_setstacksize(pthread_attr_t *attributes, size_t bytes) {
    static int (*real)(pthread_attr_t *, size_t);
    if (!real) {
        real = (int (*)(pthread_attr_t *, size_t))dlsym(RTLD_NEXT, "pthread_attr_setstacksize");
    }
    const char *told = getenv("STACK_TOLD");
    FILE *file = told ? fopen(told, "w") : NULL;
    if (file) {
        fprintf(file, "%zu\n", bytes);
        fclose(file);
    }
    return real(attributes, bytes / 4);
}
