/* A file whose unsynced bytes are lost with the process: what is written to a plain file is in it only once fdatasync was called. */
#define _GNU_SOURCE
#include <dlfcn.h>
#include <stdlib.h>
#include <string.h>
#include <sys/stat.h>
#include <unistd.h>

static char *waiting;
static size_t length, room;
static int owner = -1;

static ssize_t really(int file, const void *bytes, size_t count)
{
    static ssize_t (*next)(int, const void *, size_t);
    if (next == NULL)
        *(void **)&next = dlsym(RTLD_NEXT, "write");
    return next(file, bytes, count);
}

ssize_t write(int file, const void *bytes, size_t count)
{
    struct stat told;
    if (fstat(file, &told) != 0 || !S_ISREG(told.st_mode) || (owner != -1 && owner != file))
        return really(file, bytes, count);
    owner = file;
    if (room - length < count) {
        room = 2 * (length + count);
        waiting = realloc(waiting, room);
        if (waiting == NULL)
            abort();
    }
    memcpy(waiting + length, bytes, count);
    length += count;
    return (ssize_t)count;
}

int fdatasync(int file)
{
    size_t done = 0;
    while (file == owner && done < length) {
        ssize_t part = really(file, waiting + done, length - done);
        if (part < 0)
            return -1;
        done += (size_t)part;
    }
    length = 0;
    return 0;
}
