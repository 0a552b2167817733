/* Reads at random places of a disk of Linux, past its cache, so many at a time: what the kernel's driver does beside examples/block_vfio.c, as frugal.
 *
 *   vfio_reads DISK SECONDS DEPTH BYTES */
#include <errno.h>
#include <fcntl.h>
#include <inttypes.h>
#include <linux/aio_abi.h>
#include <linux/fs.h>
#include <stdint.h>
#include <stdio.h>
#include <stdlib.h>
#include <string.h>
#include <sys/ioctl.h>
#include <sys/syscall.h>
#include <time.h>
#include <unistd.h>

enum { MOST = 64 };

static uint64_t places, bytes, random_state = 1;
static aio_context_t context;
static int disk;
static struct iocb commands[MOST];

static void must(int good, const char *what)
{
    if (good)
        return;
    fprintf(stderr, "vfio_reads: %s: %s\n", what, strerror(errno));
    exit(1);
}

static uint64_t microseconds(void)
{
    struct timespec time;
    clock_gettime(CLOCK_MONOTONIC, &time);
    return (uint64_t)time.tv_sec * 1000000 + (uint64_t)time.tv_nsec / 1000;
}

static uint64_t mixed(uint64_t number)
{
    number = (number ^ (number >> 30)) * 0xbf58476d1ce4e5b9u;
    number = (number ^ (number >> 27)) * 0x94d049bb133111ebu;
    return number ^ (number >> 31);
}

/* Submits the commands of those numbers, all by one call. */
static void submit(const uint64_t *which, long count)
{
    struct iocb *list[MOST];
    for (long i = 0; i < count; i++) {
        commands[which[i]].aio_offset = (int64_t)(mixed(random_state++ << 20) % places * bytes);
        list[i] = &commands[which[i]];
    }
    must(count == 0 || syscall(SYS_io_submit, context, count, list) == count, "io_submit");
}

static void open_disk(const char *name, uint64_t depth)
{
    uint64_t length = 0;
    void *buffer = NULL;
    must((disk = open(name, O_RDONLY | O_DIRECT)) >= 0 && ioctl(disk, BLKGETSIZE64, &length) == 0, name);
    errno = EINVAL;
    must(depth > 0 && depth <= MOST && bytes > 0 && (places = length / bytes) > 0, "depth or bytes");
    must(syscall(SYS_io_setup, MOST, &context) == 0, "io_setup");
    must(posix_memalign(&buffer, 4096, MOST * bytes) == 0, "memory");
    for (uint64_t i = 0; i < depth; i++) {
        commands[i].aio_data = i;
        commands[i].aio_lio_opcode = IOCB_CMD_PREAD;
        commands[i].aio_fildes = (uint32_t)disk;
        commands[i].aio_buf = (uintptr_t)buffer + i * bytes;
        commands[i].aio_nbytes = bytes;
    }
}

int main(int count, char **words)
{
    struct io_event events[MOST];
    uint64_t which[MOST], depth, out, done = 0, begin, time;
    if (count != 5)
        return 2;
    depth = strtoull(words[3], NULL, 10);
    bytes = strtoull(words[4], NULL, 10);
    open_disk(words[1], depth);
    for (out = 0; out < depth; out++)
        which[out] = out;
    begin = microseconds();
    for (submit(which, (long)out); out > 0;) {
        long got = syscall(SYS_io_getevents, context, 1L, (long)MOST, events, NULL);
        must(got > 0, "io_getevents");
        for (long i = 0; i < got; i++) {
            errno = EIO;
            must(events[i].res == (int64_t)bytes, "a read");
            which[i] = events[i].data;
        }
        done += (uint64_t)got;
        if (microseconds() - begin < strtoull(words[2], NULL, 10) * 1000000)
            submit(which, got);
        else
            out -= (uint64_t)got;
    }
    time = microseconds() - begin;
    printf("reads: depth %" PRIu64 ", %" PRIu64 " bytes: %.0f reads a second (%" PRIu64 " in %" PRIu64 " ms)\n", depth, bytes,
           (double)done * 1e6 / (double)time, done, time / 1000);
    return 0;
}
