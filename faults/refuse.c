// Laid over the C library by LD_PRELOAD, it refuses one call of a program: that of the kind FAULT_KIND whose number is FAULT_AT, counted
// from 1. Then it writes a byte to the descriptor FAULT_TOLD. All other calls are the C library's.

#define _GNU_SOURCE
#include <errno.h>
#include <stdatomic.h>
#include <stdbool.h>
#include <stddef.h>
#include <stdlib.h>
#include <string.h>
#include <sys/syscall.h>
#include <unistd.h>

// The heap of glibc, by the names that nothing is laid over.
void *__libc_malloc(size_t size);
void *__libc_calloc(size_t count, size_t size);
void *__libc_realloc(void *at, size_t size);
void *__libc_memalign(size_t align, size_t size);

static const char *refused_kind = "";
static unsigned long refused_at;
static int told;
static atomic_ulong asked;

static unsigned long number_of(const char *name) {
    const char *text = getenv(name);
    return text != NULL ? strtoul(text, NULL, 10) : 0;
}

__attribute__((constructor)) static void begin(void) {
    const char *kind = getenv("FAULT_KIND");
    refused_at = number_of("FAULT_AT");
    told = (int)number_of("FAULT_TOLD");
    refused_kind = kind != NULL ? kind : "";
}

// Whether this call is the one. Calls of several threads are counted as they come.
static bool is_refused(const char *kind, int fault) {
    if (strcmp(kind, refused_kind) != 0 || atomic_fetch_add(&asked, 1) + 1 != refused_at) {
        return false;
    }
    syscall(SYS_write, told, "", 1);
    errno = fault;
    return true;
}

static bool is_without_memory(void) {
    return is_refused("memory", ENOMEM);
}

void *malloc(size_t size) {
    return is_without_memory() ? NULL : __libc_malloc(size);
}

void *calloc(size_t count, size_t size) {
    return is_without_memory() ? NULL : __libc_calloc(count, size);
}

void *realloc(void *at, size_t size) {
    return is_without_memory() ? NULL : __libc_realloc(at, size);
}

void *memalign(size_t align, size_t size) {
    return is_without_memory() ? NULL : __libc_memalign(align, size);
}

void *aligned_alloc(size_t align, size_t size) {
    return memalign(align, size);
}

int posix_memalign(void **at, size_t align, size_t size) {
    void *made = memalign(align, size);
    if (made == NULL) {
        return ENOMEM;
    }
    *at = made;
    return 0;
}

ssize_t read(int from, void *to, size_t size) {
    return from == STDIN_FILENO && is_refused("read", EIO) ? -1 : syscall(SYS_read, from, to, size);
}

ssize_t write(int to, const void *from, size_t size) {
    const char *kind = to == STDOUT_FILENO ? "write" : to == STDERR_FILENO ? "error" : "other";
    return is_refused(kind, EIO) ? -1 : syscall(SYS_write, to, from, size);
}
