/* NBD's messages and handshake (fixed newstyle, simple replies), for file_server.c. A client has some seconds for the whole handshake, however it
 * spends them. */
#ifndef NBD_H
#define NBD_H
#include "uas_tasks.h"
#include <endian.h>
#include <errno.h>
#include <poll.h>
#include <sys/socket.h>
#include <time.h>

enum { GREETING_SECONDS = 5, MOST_OPTION_BYTES = 65536, MOST_BYTES = 32768 * UAS_BLOCK_BYTES };
enum { READ = 0, WRITE = 1, LEAVE = 2, FLUSH = 3, FUA = 1, HAS_FLAGS = 1, SENDS_FLUSH = 4, SENDS_FUA = 8, MANY = 256 };
enum { DONE = 0, NO_IO = 5, NO_MEMORY = 12, INVALID = 22 };
enum { EXPORT_NAME = 1, ABORT = 2, INFO = 6, GO = 7, ACK = 1, ABOUT = 3 };

static const uint64_t OPTION_MAGIC = 0x49484156454f5054, REPLY_MAGIC = 0x3e889045565a9;
static const uint32_t UNSUPPORTED = 0x80000001;

/* The messages as they are on the wire, big endian. */
struct __attribute__((packed)) request {
    uint32_t magic;
    uint16_t flags, type;
    uint64_t cookie, offset;
    uint32_t length;
};

struct __attribute__((packed)) reply {
    uint32_t magic, error;
    uint64_t cookie;
};

/* A client's socket, and when it is dropped, in milliseconds of the machine's clock; 0 is never. */
struct client {
    int socket;
    int64_t deadline;
};

/* ---- Bytes from and to a client ---- */

static inline int64_t now(void)
{
    struct timespec time;
    clock_gettime(CLOCK_MONOTONIC, &time);
    return (int64_t)time.tv_sec * 1000 + time.tv_nsec / 1000000;
}

/* Waits until a client can be read or written; false at its deadline. */
static inline bool is_ready(const struct client *client, short events)
{
    struct pollfd about = { .fd = client->socket, .events = events };
    int found = 1;
    if (client->deadline == 0)
        return true;
    do {
        int64_t left = client->deadline - now();
        found = left > 0 ? poll(&about, 1, (int)left) : 0;
    } while (found < 0 && errno == EINTR);
    return found > 0;
}

static inline bool get(const struct client *from, void *bytes, size_t length)
{
    for (uint8_t *at = bytes; length > 0;) {
        ssize_t part = is_ready(from, POLLIN) ? recv(from->socket, at, length, 0) : 0;
        if (part == 0 || (part < 0 && errno != EINTR))
            return false;
        if (part > 0) {
            at += part;
            length -= (size_t)part;
        }
    }
    return true;
}

static inline bool put(const struct client *to, const void *bytes, size_t length)
{
    int flags = to->deadline == 0 ? MSG_NOSIGNAL : MSG_NOSIGNAL | MSG_DONTWAIT;
    for (const uint8_t *at = bytes; length > 0;) {
        ssize_t part = is_ready(to, POLLOUT) ? send(to->socket, at, length, flags) : 0;
        if (part == 0 || (part < 0 && errno != EINTR && errno != EAGAIN))
            return false;
        if (part > 0) {
            at += part;
            length -= (size_t)part;
        }
    }
    return true;
}

/* Drops so many bytes of a client's. */
static inline bool skip(const struct client *from, size_t length)
{
    uint8_t skipped[4096];
    for (size_t part; length > 0; length -= part) {
        part = length < sizeof skipped ? length : sizeof skipped;
        if (!get(from, skipped, part))
            return false;
    }
    return true;
}

/* ---- The handshake ---- */

static inline bool answer_option(const struct client *to, uint32_t option, uint32_t kind, const void *data, uint32_t length)
{
    struct __attribute__((packed)) { uint64_t magic; uint32_t option, kind, length; } head = { htobe64(REPLY_MAGIC), htobe32(option), htobe32(kind), htobe32(length) };
    return put(to, &head, sizeof head) && put(to, data, length);
}

/* Answers INFO and GO: the export, and the sizes of its requests. */
static inline bool inform(const struct client *client, uint32_t option, uint64_t size, uint16_t flags)
{
    struct __attribute__((packed)) { uint16_t kind; uint64_t size; uint16_t flags; } export = { 0, htobe64(size), flags };
    struct __attribute__((packed)) { uint16_t kind; uint32_t least, best, most; } sizes = { htobe16(3), htobe32(UAS_BLOCK_BYTES), htobe32(4096), htobe32(MOST_BYTES) };
    return answer_option(client, option, ABOUT, &export, sizeof export) && answer_option(client, option, ABOUT, &sizes, sizeof sizes) &&
           answer_option(client, option, ACK, NULL, 0);
}

/* The handshake, about an export of so many bytes; whether requests come. */
static inline bool greet(const struct client *client, uint64_t size)
{
    const uint16_t ours = htobe16(3), flags = htobe16(HAS_FLAGS | SENDS_FLUSH | SENDS_FUA | MANY);
    struct __attribute__((packed)) { uint64_t size; uint16_t flags; uint8_t zeros[124]; } old = { htobe64(size), flags, { 0 } };
    struct __attribute__((packed)) { uint64_t magic; uint32_t option, length; } asked;
    uint32_t theirs;
    if (!put(client, "NBDMAGICIHAVEOPT", 16) || !put(client, &ours, 2) || !get(client, &theirs, 4) || be32toh(theirs) > 3)
        return false;
    while (get(client, &asked, sizeof asked) && be64toh(asked.magic) == OPTION_MAGIC) {
        uint32_t option = be32toh(asked.option), length = be32toh(asked.length);
        if (length > MOST_OPTION_BYTES || !skip(client, length))
            return false;
        if (option == EXPORT_NAME)
            return put(client, &old, be32toh(theirs) & 2 ? 10 : sizeof old);
        if (option == INFO || option == GO) {
            if (!inform(client, option, size, flags))
                return false;
        } else if (!answer_option(client, option, option == ABORT ? ACK : UNSUPPORTED, NULL, 0) || option == ABORT)
            return false;
        if (option == GO)
            return true;
    }
    return false;
}

#endif
