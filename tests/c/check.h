/* What the tests share: checks that count, bytes from hexadecimal, memory with a guard page behind it. */
#ifndef UAS_TESTS_CHECK_H
#define UAS_TESTS_CHECK_H

#include <stdbool.h>
#include <stdint.h>
#include <stdio.h>
#include <stdlib.h>
#include <string.h>
#include <sys/mman.h>
#include <unistd.h>

static unsigned long passed, failed;

static inline bool check_at(bool good, const char *what, const char *file, int line)
{
    if (good)
        passed++;
    else {
        failed++;
        fprintf(stderr, "%s:%d: %s\n", file, line, what);
    }
    return good;
}

#define CHECK(good) check_at((good), #good, __FILE__, __LINE__)

/* The bytes that two-digit hexadecimal numbers name; how many. A word of the form xN repeats the byte before it, N times in all. */
static inline size_t from_hex(const char *text, uint8_t *bytes, size_t room)
{
    size_t length = 0;
    for (const char *at = text; *at != '\0';) {
        char *end;
        if (*at == ' ') {
            at++;
            continue;
        }
        if (*at == 'x') {
            for (unsigned long more = strtoul(at + 1, &end, 10); more > 1 && length < room; more--, length++)
                bytes[length] = bytes[length - 1];
            at = end;
            continue;
        }
        char digits[3] = { at[0], at[1], '\0' };
        unsigned long byte = strtoul(digits, &end, 16);
        if (end != digits + 2 || length == room) {
            fprintf(stderr, "not bytes: %s\n", text);
            exit(2);
        }
        bytes[length++] = (uint8_t)byte;
        at += 2;
    }
    return length;
}

static inline bool same_bytes_at(const uint8_t *bytes, size_t length, const char *text, const char *file, int line)
{
    static uint8_t wanted[1024];
    size_t count = from_hex(text, wanted, sizeof wanted);
    if (check_at(length == count && memcmp(bytes, wanted, count) == 0, text, file, line))
        return true;
    fprintf(stderr, "    got");
    for (size_t i = 0; i < length && i < 160; i++)
        fprintf(stderr, " %02x", bytes[i]);
    fprintf(stderr, "\n");
    return false;
}

#define CHECK_BYTES(bytes, length, text) same_bytes_at((bytes), (length), (text), __FILE__, __LINE__)

/* Memory of `most` bytes that ends where a page begins that nobody may touch; `at_end` gives its last bytes. */
struct guarded {
    uint8_t *end;
    size_t most;
};

static inline struct guarded guard(size_t most)
{
    size_t page = (size_t)sysconf(_SC_PAGESIZE);
    size_t length = (most + page - 1) / page * page;
    uint8_t *start = mmap(NULL, length + page, PROT_READ | PROT_WRITE, MAP_PRIVATE | MAP_ANONYMOUS, -1, 0);
    if (start == MAP_FAILED || mprotect(start + length, page, PROT_NONE) != 0) {
        perror("mmap");
        exit(2);
    }
    return (struct guarded){ start + length, length };
}

static inline uint8_t *at_end(struct guarded memory, size_t length)
{
    if (length > memory.most) {
        fprintf(stderr, "no room for %zu bytes\n", length);
        exit(2);
    }
    return memory.end - length;
}

static inline int tell(const char *name)
{
    printf("%s: %lu passed, %lu failed\n", name, passed, failed);
    return failed == 0 ? 0 : 1;
}

#endif
