/* Refuses allocations of the program that it is preloaded into: the so many-th one by REFUSE=N, and
   by REFUSE=after-output every one once something was written to standard output. At the end it writes to the
   file LEFT how many blocks were taken and not given back. With OF=NAME nothing counts but what the shared object in a file
   of this name takes and gives back. */
#define _GNU_SOURCE
#include <dlfcn.h>
#include <errno.h>
#include <stdio.h>
#include <stdlib.h>
#include <string.h>
#include <unistd.h>

static long left = -1;
static int refuses_all = 0;
static long blocks = 0;

/* Whether what this place of the program takes counts. */
static int counts(const void *caller) {
    const char *wanted = getenv("OF");
    Dl_info found;
    if (!wanted) return 1;
    if (!dladdr(caller, &found) || !found.dli_fname) return 0;
    const char *folder = strrchr(found.dli_fname, '/');
    return strcmp(folder ? folder + 1 : found.dli_fname, wanted) == 0;
}

static int refuses(const void *caller) {
    if (!counts(caller)) return 0;
    if (refuses_all) {
        errno = ENOMEM;
        return 1;
    }
    if (left < 0) {
        const char *wanted = getenv("REFUSE");
        left = wanted ? atol(wanted) : 0;
    }
    if (left == 0 || --left > 0) {
        return 0;
    }
    left = 0;
    errno = ENOMEM;
    return 1;
}

static void *taken(void *block, const void *caller) {
    if (block && counts(caller)) blocks++;
    return block;
}

static void *allocated(size_t size, const void *caller) {
    static void *(*real)(size_t);
    if (!real) real = dlsym(RTLD_NEXT, "malloc");
    return refuses(caller) ? NULL : taken(real(size), caller);
}

void *malloc(size_t size) {
    return allocated(size, __builtin_return_address(0));
}

void *calloc(size_t count, size_t size) {
    void *block = allocated(count * size, __builtin_return_address(0));
    return block ? memset(block, 0, count * size) : NULL;
}

void *realloc(void *block, size_t size) {
    static void *(*real)(void *, size_t);
    const void *caller = __builtin_return_address(0);
    if (!real) real = dlsym(RTLD_NEXT, "realloc");
    if (refuses(caller)) return NULL;
    return block ? real(block, size) : taken(real(block, size), caller);
}

void *aligned_alloc(size_t alignment, size_t size) {
    static void *(*real)(size_t, size_t);
    const void *caller = __builtin_return_address(0);
    if (!real) real = dlsym(RTLD_NEXT, "aligned_alloc");
    return refuses(caller) ? NULL : taken(real(alignment, size), caller);
}

int posix_memalign(void **block, size_t alignment, size_t size) {
    static int (*real)(void **, size_t, size_t);
    const void *caller = __builtin_return_address(0);
    if (!real) real = dlsym(RTLD_NEXT, "posix_memalign");
    int why = refuses(caller) ? ENOMEM : real(block, alignment, size);
    if (why == 0 && counts(caller)) blocks++;
    return why;
}

void free(void *block) {
    static void (*real)(void *);
    if (!real) real = dlsym(RTLD_NEXT, "free");
    if (block && counts(__builtin_return_address(0))) blocks--;
    real(block);
}

__attribute__((destructor)) static void tell(void) {
    const char *name = getenv("LEFT");
    long left = blocks;
    FILE *file = name ? fopen(name, "w") : NULL;
    if (file) {
        fprintf(file, "%ld", left);
        fclose(file);
    }
}

static void after_output(int file) {
    const char *wanted = getenv("REFUSE");
    if (file == STDOUT_FILENO && wanted && strcmp(wanted, "after-output") == 0) {
        refuses_all = 1;
    }
}

ssize_t write(int file, const void *bytes, size_t size) {
    static ssize_t (*real)(int, const void *, size_t);
    if (!real) real = dlsym(RTLD_NEXT, "write");
    ssize_t written = real(file, bytes, size);
    after_output(file);
    return written;
}

ssize_t __write(int file, const void *bytes, size_t size) {
    return write(file, bytes, size);
}
