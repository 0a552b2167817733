/* QEMU with its processor stopped (Debian's has no accelerator qtest), by its qtest socket: registers are read and written by lines of text, and
 * the guest's memory is a file that both map. Failures end the program, and QEMU with it. */
#ifndef QTEST_H
#define QTEST_H

#include <errno.h>
#include <fcntl.h>
#include <inttypes.h>
#include <poll.h>
#include <signal.h>
#include <stdarg.h>
#include <stdbool.h>
#include <stdint.h>
#include <stdio.h>
#include <stdlib.h>
#include <string.h>
#include <sys/mman.h>
#include <sys/prctl.h>
#include <sys/socket.h>
#include <sys/un.h>
#include <sys/wait.h>
#include <time.h>
#include <unistd.h>

/* A q35 has 2 GiB of its memory from 0 on, and the rest from 4 GiB on. */
#define GUEST_LOW 0x80000000u
#define GUEST_HIGH 0x100000000u
#define GUEST_BYTES 0xc0000000u

enum { QTEST_SECONDS = 30 };

static uint8_t *guest_memory;
static int qtest_socket;
static unsigned owed_answers;
static pid_t qemu;

/* Prints what the program knows of where it is. */
static void show_state(void);

static void fail(const char *what, uint64_t number)
{
    fprintf(stderr, "%s: %s: %" PRIx64 "\n", program_invocation_short_name, what, number);
    show_state();
    if (qemu > 0)
        kill(qemu, SIGKILL);
    exit(1);
}

static void *guest(uint64_t address)
{
    if (address >= GUEST_HIGH)
        address -= GUEST_HIGH - GUEST_LOW;
    if (address >= GUEST_BYTES)
        fail("no guest memory", address);
    return guest_memory + address;
}

static uint32_t guest_word(uint64_t address)
{
    return __atomic_load_n((uint32_t *)guest(address), __ATOMIC_ACQUIRE);
}

static void set_guest_word(uint64_t address, uint32_t value)
{
    __atomic_store_n((uint32_t *)guest(address), value, __ATOMIC_RELEASE);
}

/* Writes a TRB, its last word, which has the Cycle bit, last. */
static inline void set_guest_trb(uint64_t address, const void *bytes)
{
    uint32_t words[4];
    memcpy(words, bytes, sizeof words);
    memcpy(guest(address), words, 12);
    set_guest_word(address + 12, words[3]);
}

/* Sends a line. Its answer is owed. */
__attribute__((format(printf, 1, 2))) static void send_line(const char *format, ...)
{
    char line[128];
    va_list words;
    va_start(words, format);
    int length = vsnprintf(line, sizeof line, format, words);
    va_end(words);
    if (length <= 0 || write(qtest_socket, line, (size_t)length) != length)
        fail("QEMU has gone before this line", 0);
    owed_answers++;
}

/* Reads a byte of what QEMU answers. */
static char next_of_answer(void)
{
    static char answers[4096];
    static size_t first, last;
    if (first == last) {
        struct pollfd readable = { .fd = qtest_socket, .events = POLLIN };
        if (poll(&readable, 1, QTEST_SECONDS * 1000) != 1)
            fail("QEMU is silent", QTEST_SECONDS);
        ssize_t more = read(qtest_socket, answers, sizeof answers);
        if (more <= 0)
            fail("QEMU has gone", owed_answers);
        first = 0;
        last = (size_t)more;
    }
    return answers[first++];
}

/* Reads the answers that are owed: what the lines asked for is done. The number of the last, if it has one. */
static uint64_t settle(void)
{
    char answer[128] = "OK";
    for (; owed_answers > 0; owed_answers--) {
        size_t length = 0;
        do
            answer[length] = next_of_answer();
        while (answer[length] != '\n' && ++length < sizeof answer - 1);
        answer[length] = 0;
        if (strncmp(answer, "OK", 2) != 0)
            fail("QEMU refuses a line", (uint64_t)(unsigned char)answer[0]);
    }
    return strtoull(answer + 2, NULL, 0);
}

static uint32_t reg(uint64_t address)
{
    send_line("readl 0x%" PRIx64 "\n", address);
    return (uint32_t)settle();
}

static void set_reg(uint64_t address, uint32_t value)
{
    send_line("writel 0x%" PRIx64 " 0x%" PRIx32 "\n", address, value);
}

/* A word of a PCI device's configuration space, by ports CF8h and CFCh. */
static void set_config(uint32_t device, uint32_t at, uint32_t value)
{
    send_line("outl 0xcf8 0x%" PRIx32 "\n", 0x80000000u | device << 11 | at);
    send_line("outl 0xcfc 0x%" PRIx32 "\n", value);
}

static void end_qemu(void)
{
    if (qemu > 0) {
        settle();
        kill(qemu, SIGKILL);
        waitpid(qemu, NULL, 0);
        munmap(guest_memory, GUEST_BYTES);
        close(qtest_socket);
        guest_memory = NULL;
        qemu = 0;
    }
}

/* A new file of so many bytes, zeros. */
static int new_file(const char *name, uint64_t bytes)
{
    int file = open(name, O_RDWR | O_CREAT | O_TRUNC, 0600);
    if (file < 0 || ftruncate(file, (off_t)bytes) != 0)
        fail("no file", bytes);
    return file;
}

/* Starts QEMU, a new one where there is one, with these words behind those for its memory and its socket, in the current folder. */
static void start_qemu(const char *const *more)
{
    struct sockaddr_un name = { .sun_family = AF_UNIX, .sun_path = "qtest.socket" };
    const char *words[64] = { "qemu-system-x86_64", "-machine", "q35,memory-backend=ram", "-accel", "tcg,tb-size=1", "-S", "-nodefaults",
                              "-display", "none", "-m", "3G", "-object", "memory-backend-file,id=ram,size=3G,mem-path=guest.memory,share=on", "-qtest",
                              "unix:qtest.socket", "-qtest-log", "/dev/null" };
    size_t count = 17;
    while (*more != NULL && count < 63)
        words[count++] = *more++;
    end_qemu();
    int file = new_file("guest.memory", GUEST_BYTES), listener = socket(AF_UNIX, SOCK_STREAM, 0);
    guest_memory = mmap(NULL, GUEST_BYTES, PROT_READ | PROT_WRITE, MAP_SHARED, file, 0);
    unlink(name.sun_path);
    if (guest_memory == MAP_FAILED || bind(listener, (struct sockaddr *)&name, sizeof name) != 0 || listen(listener, 1) != 0)
        fail("no memory or no socket", 0);
    close(file);
    qemu = fork();
    if (qemu == 0) {
        prctl(PR_SET_PDEATHSIG, SIGKILL);
        execvp(words[0], (char *const *)(uintptr_t)words);
        _exit(127);
    }
    signal(SIGPIPE, SIG_IGN);
    struct pollfd readable = { .fd = listener, .events = POLLIN };
    if (poll(&readable, 1, QTEST_SECONDS * 1000) != 1 || (qtest_socket = accept(listener, NULL, NULL)) < 0)
        fail("QEMU doesn't start", QTEST_SECONDS);
    close(listener);
    send_line("endianness\n"); /* answered once all is open */
    settle();
    unlink("guest.memory");
    unlink(name.sun_path);
}

#endif
