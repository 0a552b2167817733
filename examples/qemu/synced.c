/* Numbered blocks: who writes them tells which are synced, and who looks finds them.
 *
 *   synced write DISK WRITER FIRST    in the guest: blocks of 4 KiB with the numbers from FIRST on, each at its place, until the disk is gone;
 *                                     it tells nothing of those that fail
 *   synced look IMAGE                 on the host: standard input is what the guest told; each block has the number that was told last, or a
 *                                     later one
 *
 * A writer has a zone of its own. Writer 0 writes with O_DSYNC (FUA), 1 calls fdatasync (SYNCHRONIZE CACHE) after some blocks, 2 too, through
 * Linux's page cache. */
#include <fcntl.h>
#include <inttypes.h>
#include <stdbool.h>
#include <stdint.h>
#include <stdio.h>
#include <stdlib.h>
#include <string.h>
#include <unistd.h>

enum { WRITERS = 3, PLACES = 512, BYTES = 4096, MOST = 16, SECTOR = 512 };

struct words {
    uint64_t writer, number;
};

static off_t place(uint64_t writer, uint64_t number)
{
    return (off_t)(writer * PLACES + number % PLACES) * BYTES;
}

static bool write_number(int disk, uint8_t *bytes, uint64_t writer, uint64_t number)
{
    const struct words words = { writer, number };
    for (size_t at = 0; at < BYTES; at += sizeof words)
        memcpy(bytes + at, &words, sizeof words);
    return pwrite(disk, bytes, BYTES, place(writer, number)) == BYTES;
}

/* Writes and tells until the disk is gone. */
static int write_all(const char *name, uint64_t writer, uint64_t number)
{
    static const int flags[WRITERS] = { O_DIRECT | O_DSYNC, O_DIRECT, 0 };
    int disk = open(name, O_WRONLY | flags[writer]);
    uint8_t *bytes = aligned_alloc(BYTES, BYTES);
    char line[100];
    for (srand((unsigned)(number + writer)); disk >= 0 && bytes != NULL;) {
        uint64_t first = number, last = number + (unsigned)rand() % MOST;
        while (number <= last && write_number(disk, bytes, writer, number))
            number++;
        bool good = number > last && (writer == 0 || fdatasync(disk) == 0);
        number = last + 1;
        if (!good && access(name, F_OK) != 0)
            break;
        if (!good) {
            usleep(100000);
            continue;
        }
        int length = snprintf(line, sizeof line, "guest: synced %" PRIu64 " %" PRIu64 " %" PRIu64 "\n", writer, first, last);
        if (write(1, line, (size_t)length) != length)
            break;
    }
    return 1;
}

/* Takes in what was told; how many blocks that was. */
static uint64_t hear(uint64_t least[WRITERS][PLACES])
{
    char line[1000];
    uint64_t told = 0;
    while (fgets(line, sizeof line, stdin) != NULL) {
        uint64_t writer, first, last;
        const char *at = strstr(line, "guest: synced ");
        if (at == NULL || strchr(at, '\n') == NULL || sscanf(at, "guest: synced %" SCNu64 " %" SCNu64 " %" SCNu64, &writer, &first, &last) != 3 ||
            writer >= WRITERS || last < first || last - first >= MOST)
            continue;
        for (; first <= last; first++, told++)
            least[writer][first % PLACES] = first;
    }
    return told;
}

static int look(const char *name)
{
    static uint64_t least[WRITERS][PLACES];
    uint64_t told = hear(least), later = 0, lost = 0;
    int image = open(name, O_RDONLY);
    for (uint64_t writer = 0; writer < WRITERS; writer++)
        for (uint64_t one = 0; one < PLACES; one++)
            for (int at = 0; at < BYTES && least[writer][one] > 0; at += SECTOR) {
                struct words found[SECTOR / sizeof(struct words)];
                bool good = pread(image, found, SECTOR, place(writer, one) + at) == SECTOR;
                for (size_t k = 0; k < SECTOR / sizeof(struct words); k++)
                    good = good && found[k].writer == writer && found[k].number % PLACES == one && found[k].number == found[0].number;
                good = good && found[0].number >= least[writer][one];
                later += good && found[0].number > least[writer][one];
                lost += !good;
            }
    printf("%" PRIu64 " blocks of 4 KiB were told as synced; of their last writes %" PRIu64 " sectors are lost, %" PRIu64 " have a later one\n", told, lost, later);
    return told == 0 || lost > 0;
}

int main(int words, char **word)
{
    if (words == 5 && strcmp(word[1], "write") == 0 && strtoull(word[3], NULL, 10) < WRITERS)
        return write_all(word[2], strtoull(word[3], NULL, 10), strtoull(word[4], NULL, 10));
    if (words == 3 && strcmp(word[1], "look") == 0)
        return look(word[2]);
    fprintf(stderr, "usage: synced write DISK WRITER FIRST | synced look IMAGE\n");
    return 2;
}
