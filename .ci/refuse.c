/* Preloaded into a run of the program by memory_cases.py: refuses one allocation, that of the number in REFUSE,
 * counted from 1 since `main` began, and writes a byte to the descriptor REFUSE_TELL when it does. Each call counts
 * that may be refused, also one that makes a block longer or shorter. It needs glibc, whose own functions are named
 * `__libc_*`. */
#define _GNU_SOURCE
#include <dlfcn.h>
#include <errno.h>
#include <stdbool.h>
#include <stddef.h>
#include <stdlib.h>
#include <unistd.h>

typedef int main_function(int, char **, char **);
typedef int start_function(main_function *, int, char **, void (*)(void), void (*)(void), void (*)(void), void *);

extern void *__libc_malloc(size_t);
extern void *__libc_calloc(size_t, size_t);
extern void *__libc_realloc(void *, size_t);
extern void *__libc_memalign(size_t, size_t);

static main_function *program_main;
static bool begun;
static unsigned long asked;
static unsigned long refused;
static int tell;

static unsigned long number(const char *name) {
    const char *text = getenv(name);
    return text ? strtoul(text, NULL, 10) : 0;
}

static bool refuses(void) {
    if (!begun || ++asked != refused)
        return false;
    if (write(tell, "r", 1) != 1)
        abort();
    errno = ENOMEM;
    return true;
}

static int counted_main(int count, char **words, char **environment) {
    refused = number("REFUSE");
    tell = (int)number("REFUSE_TELL");
    begun = true;
    return program_main(count, words, environment);
}

/* The C library calls `main` by this function, so here it is put behind `counted_main`. */
int __libc_start_main(main_function *main, int count, char **words, void (*init)(void), void (*fini)(void),
                      void (*loader_fini)(void), void *stack_end) {
    start_function *start = (start_function *)dlsym(RTLD_NEXT, "__libc_start_main");
    program_main = main;
    return start(counted_main, count, words, init, fini, loader_fini, stack_end);
}

void *malloc(size_t size) { return refuses() ? NULL : __libc_malloc(size); }

void *calloc(size_t count, size_t size) { return refuses() ? NULL : __libc_calloc(count, size); }

void *realloc(void *block, size_t size) { return refuses() ? NULL : __libc_realloc(block, size); }

void *memalign(size_t alignment, size_t size) { return refuses() ? NULL : __libc_memalign(alignment, size); }

void *aligned_alloc(size_t alignment, size_t size) { return memalign(alignment, size); }

int posix_memalign(void **block, size_t alignment, size_t size) {
    void *made = memalign(alignment, size);
    if (made)
        *block = made;
    return made ? 0 : ENOMEM;
}
