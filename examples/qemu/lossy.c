/* A disk whose cache is lost with its process: what a program wrote to a file by pwrite is in the file only once fdatasync was called.
 *
 *   cc -D_GNU_SOURCE -shared -fPIC -O2 lossy.c -o lossy.so && LD_PRELOAD=./lossy.so serve_program usb ..
 *
 * The cache is a private mapping of the one file that the program writes. With LIE=1 in the environment fdatasync does nothing, as a disk that
 * tells its host a lie. */
#include <dlfcn.h>
#include <errno.h>
#include <stdbool.h>
#include <stdint.h>
#include <stdlib.h>
#include <string.h>
#include <sys/mman.h>
#include <sys/stat.h>
#include <unistd.h>

enum { PART = 4096 };

static uint8_t *cache;
static bool *dirty;
static size_t size;

/* The cache of the file; false where the bytes aren't in it. */
static bool open_cache(int file, size_t length, off_t place)
{
    struct stat told;
    if (cache == NULL && fstat(file, &told) == 0) {
        size = (size_t)told.st_size;
        dirty = calloc(size / PART + 1, 1);
        cache = mmap(NULL, size, PROT_READ | PROT_WRITE, MAP_PRIVATE, file, 0);
        if (cache == MAP_FAILED || dirty == NULL)
            abort();
    }
    errno = EIO;
    return cache != NULL && (size_t)place <= size && length <= size - (size_t)place;
}

ssize_t pread(int file, void *bytes, size_t length, off_t place)
{
    if (!open_cache(file, length, place))
        return -1;
    memcpy(bytes, cache + place, length);
    return (ssize_t)length;
}

ssize_t pwrite(int file, const void *bytes, size_t length, off_t place)
{
    if (!open_cache(file, length, place))
        return -1;
    memcpy(cache + place, bytes, length);
    for (size_t part = (size_t)place / PART; part * PART < (size_t)place + length; part++)
        dirty[part] = true;
    return (ssize_t)length;
}

int fdatasync(int file)
{
    ssize_t (*write_through)(int, const void *, size_t, off_t);
    *(void **)&write_through = dlsym(RTLD_NEXT, "pwrite");
    if (getenv("LIE") != NULL || !open_cache(file, 0, 0))
        return 0;
    for (size_t at = 0; at < size; at += PART) {
        size_t length = size - at < PART ? size - at : PART;
        if (!dirty[at / PART])
            continue;
        if (write_through(file, cache + at, length, (off_t)at) != (ssize_t)length)
            return -1;
        dirty[at / PART] = false;
    }
    return 0;
}
