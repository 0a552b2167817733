/* Preloaded beside a program: counts its calls of a kind, and makes one of them fail.
 *
 *   FAIL_KIND=memory|read|write|sync|rename   which calls: malloc, calloc and realloc; read; write and writev; fsync and fdatasync;
 *                                             rename and its kin
 *   FAIL_AT=N                                 the N-th of them fails, from 1 on: no memory, or EIO
 *   FAIL_COUNT=FILE                           how many there were is written to FILE as the program ends
 *
 * Calls before main (those of the loader and of the C library's own start) aren't counted. */
#define _GNU_SOURCE
#include <dlfcn.h>
#include <errno.h>
#include <fcntl.h>
#include <stdatomic.h>
#include <stdbool.h>
#include <stdio.h>
#include <stdlib.h>
#include <string.h>
#include <sys/syscall.h>
#include <sys/uio.h>
#include <unistd.h>

static atomic_long calls;
static long fail_at;
static const char *kind, *told;
static bool counts;

static bool fails(const char *of)
{
    if (!counts || kind == NULL || strcmp(kind, of) != 0)
        return false;
    return atomic_fetch_add(&calls, 1) + 1 == fail_at;
}

__attribute__((constructor)) static void begin(void)
{
    const char *at = getenv("FAIL_AT");
    fail_at = at != NULL ? atol(at) : 0;
    kind = getenv("FAIL_KIND");
    told = getenv("FAIL_COUNT");
    counts = true;
}

__attribute__((destructor)) static void end(void)
{
    counts = false;
    if (told == NULL)
        return;
    FILE *file = fopen(told, "w");
    if (file != NULL) {
        fprintf(file, "%ld\n", atomic_load(&calls));
        fclose(file);
    }
}

/* The program ends by _exit, which runs no destructor. */
_Noreturn void _exit(int status)
{
    end();
    for (;;)
        syscall(SYS_exit_group, status);
}

#define REAL(name) ((__typeof__(&name))dlsym(RTLD_NEXT, #name))

extern void *__libc_malloc(size_t);
extern void *__libc_calloc(size_t, size_t);
extern void *__libc_realloc(void *, size_t);

void *malloc(size_t size)
{
    if (fails("memory")) {
        errno = ENOMEM;
        return NULL;
    }
    return __libc_malloc(size);
}

void *calloc(size_t count, size_t size)
{
    if (fails("memory")) {
        errno = ENOMEM;
        return NULL;
    }
    return __libc_calloc(count, size);
}

void *realloc(void *block, size_t size)
{
    if (fails("memory")) {
        errno = ENOMEM;
        return NULL;
    }
    return __libc_realloc(block, size);
}

#define FAILING(of, name, parameters, arguments) \
    int name parameters                          \
    {                                            \
        if (fails(of)) {                         \
            errno = EIO;                         \
            return -1;                           \
        }                                        \
        return REAL(name) arguments;             \
    }

FAILING("sync", fsync, (int file), (file))
FAILING("sync", fdatasync, (int file), (file))
FAILING("rename", rename, (const char *from, const char *to), (from, to))
FAILING("rename", renameat, (int old, const char *from, int new, const char *to), (old, from, new, to))
FAILING("rename", renameat2, (int old, const char *from, int new, const char *to, unsigned how), (old, from, new, to, how))

ssize_t read(int file, void *bytes, size_t size)
{
    if (fails("read")) {
        errno = EIO;
        return -1;
    }
    return REAL(read)(file, bytes, size);
}

ssize_t write(int file, const void *bytes, size_t size)
{
    if (fails("write")) {
        errno = EIO;
        return -1;
    }
    return REAL(write)(file, bytes, size);
}

ssize_t writev(int file, const struct iovec *parts, int count)
{
    if (fails("write")) {
        errno = EIO;
        return -1;
    }
    return REAL(writev)(file, parts, count);
}
