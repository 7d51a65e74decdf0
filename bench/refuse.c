/* Refuses the request for memory whose number REFUSED_REQUEST names, counted from 1, and writes how
   many there were to the file that REQUESTS_FILE names. tests/support/refusing.py loads it before a
   program. */
#define _GNU_SOURCE
#include <errno.h>
#include <stdatomic.h>
#include <stddef.h>
#include <stdio.h>
#include <stdlib.h>
#include <sys/syscall.h>
#include <unistd.h>

extern void *__libc_malloc(size_t);
extern void *__libc_calloc(size_t, size_t);
extern void *__libc_realloc(void *, size_t);
extern void *__libc_memalign(size_t, size_t);

static atomic_ulong requests;
static unsigned long refused;

__attribute__((constructor)) static void begin(void) {
    const char *number = getenv("REFUSED_REQUEST");
    refused = number ? strtoul(number, NULL, 10) : 0;
    atomic_store(&requests, 0);
}

/* The program ends by _exit. */
void _exit(int status) {
    unsigned long made = atomic_load(&requests);
    const char *name = getenv("REQUESTS_FILE");
    FILE *file = name ? fopen(name, "w") : NULL;
    if (file) {
        fprintf(file, "%lu\n", made);
        fclose(file);
    }
    syscall(SYS_exit_group, status);
    __builtin_unreachable();
}

static int is_refused(void) {
    return atomic_fetch_add(&requests, 1) + 1 == refused;
}

static void *none(void) {
    errno = ENOMEM;
    return NULL;
}

void *malloc(size_t size) {
    return is_refused() ? none() : __libc_malloc(size);
}

void *calloc(size_t count, size_t size) {
    return is_refused() ? none() : __libc_calloc(count, size);
}

void *realloc(void *old, size_t size) {
    return is_refused() ? none() : __libc_realloc(old, size);
}

void *memalign(size_t align, size_t size) {
    return is_refused() ? none() : __libc_memalign(align, size);
}

void *aligned_alloc(size_t align, size_t size) {
    return is_refused() ? none() : __libc_memalign(align, size);
}

int posix_memalign(void **to, size_t align, size_t size) {
    if (is_refused())
        return ENOMEM;
    void *found = __libc_memalign(align, size);
    if (!found)
        return ENOMEM;
    *to = found;
    return 0;
}
