/*
 * Refuses requests for memory. It is loaded before the C library (LD_PRELOAD) and counts every malloc, calloc and realloc of the
 * program and of the C library; no program calls for memory by another name (refused_memory.py).
 *
 * The words of control are in the file that REFUSE names, four numbers of 64 bits: how many were asked for, the first
 * one that is refused (0: none), the last one, and how many were refused. Another program may change them at any time.
 */
#define _GNU_SOURCE
#include <errno.h>
#include <fcntl.h>
#include <stdint.h>
#include <stdlib.h>
#include <sys/mman.h>
#include <unistd.h>

enum { REQUESTS, FIRST, LAST, REFUSED, WORDS };

static volatile uint64_t *control;

/* The calls of the GNU C library itself. */
extern void *__libc_malloc(size_t), *__libc_calloc(size_t, size_t), *__libc_realloc(void *, size_t);

__attribute__((constructor)) static void begin(void)
{
    const char *path = getenv("REFUSE");
    int file = path ? open(path, O_RDWR | O_CLOEXEC) : -1;
    if (file >= 0) {
        void *words = mmap(NULL, WORDS * sizeof *control, PROT_READ | PROT_WRITE, MAP_SHARED, file, 0);
        close(file);
        control = words == MAP_FAILED ? NULL : words;
    }
}

static int is_refused(void)
{
    if (!control)
        return 0;
    uint64_t request = ++control[REQUESTS];
    if (!control[FIRST] || request < control[FIRST] || request > control[LAST])
        return 0;
    control[REFUSED]++;
    errno = ENOMEM;
    return 1;
}

void *malloc(size_t size)
{
    return is_refused() ? NULL : __libc_malloc(size);
}

void *calloc(size_t count, size_t size)
{
    return is_refused() ? NULL : __libc_calloc(count, size);
}

void *realloc(void *old, size_t size)
{
    return is_refused() ? NULL : __libc_realloc(old, size);
}
