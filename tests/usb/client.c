/* SPDX-License-Identifier: Apache-2.0 */
/* A guest over libusbredirparser, the library that QEMU speaks usbredir by: client PROGRAM IMAGE PACKETS SEED
 *
 * Sends so many random packets to `PROGRAM usb IMAGE`, an image of 8,192 blocks of zeros: commands on 128 tags with their transfers in any
 * order, transfers that are cancelled before their command and come again, answered ones that are cancelled late and have to be told again,
 * endpoints and streams that aren't there, requests of endpoint 0. Each transfer has to be answered once, as it asks; what is read has to be
 * what was written, and so has the image in the end. The library's parser has to find no fault. The last line is 'N packets, M answers: as
 * they should be'; the status is 1 where something isn't. */
#include <errno.h>
#include <fcntl.h>
#include <poll.h>
#include <stdarg.h>
#include <stdbool.h>
#include <stdio.h>
#include <stdlib.h>
#include <string.h>
#include <sys/socket.h>
#include <sys/wait.h>
#include <unistd.h>
#include <usbredirparser.h>

enum { TAGS = 128, OWN_BLOCKS = 64, BLOCK = 512, MOST = 16 * BLOCK, BLOCKS = TAGS * OWN_BLOCKS, UNIT = 32, STATUS_ROOM = 112, IDS = 1 << 16 };
enum { COMMAND = 0x01, DATA_OUT = 0x02, STATUS = 0x81, DATA_IN = 0x82 };

/* what a transfer is */
enum kind { NOTHING, ANSWERED, OF_COMMAND, OF_STATUS, OF_IN, OF_OUT, OF_CONTROL, CANCELLED, REFUSED };

struct transfer {
    enum kind kind;
    uint8_t endpoint, refusal; /* of one that is refused or empty: its status */
    uint16_t tag;
    uint32_t length;
    bool again; /* it was answered and cancelled late, and is told again */
    uint64_t id;
};

enum what { TEST_READY, READ, WRITE, PAST_THE_END, UNKNOWN, WHATS };

struct command {
    enum what what;
    bool is_busy, wants_attention;
    uint32_t waits; /* answers */
    uint32_t block, count;
    uint8_t unit[UNIT], data[MOST];
};

static struct usbredirparser *parser;
static struct transfer transfers[IDS];
static struct command commands[TAGS + 1];
static uint8_t disk[BLOCKS * BLOCK];
static uint64_t next_id = 1, sent, answers, waiting, state;
static int busy, peer;
static bool is_connected;

static void fail(const char *what, ...)
{
    va_list words;
    va_start(words, what);
    fprintf(stderr, "client: packet %llu: ", (unsigned long long)sent);
    vfprintf(stderr, what, words);
    fputc('\n', stderr);
    exit(1);
}

static uint32_t any(uint32_t below)
{
    state = state * 6364136223846793005u + 1442695040888963407u;
    return (uint32_t)(state >> 33) % below;
}

/* TRANSFERS */

static void put(struct transfer *it, const uint8_t *bytes)
{
    struct usb_redir_bulk_packet_header head = {.endpoint = it->endpoint, .length = it->length, .length_high = it->length >> 16};
    head.stream_id = it->endpoint == COMMAND ? 0 : it->tag;
    bool is_in = it->endpoint & 0x80;
    usbredirparser_send_bulk_packet(parser, it->id, &head, is_in ? NULL : (uint8_t *)bytes, is_in ? 0 : it->length);
    sent++;
}

static struct transfer *transfer(enum kind kind, uint8_t endpoint, uint16_t tag, uint32_t length)
{
    struct transfer *it = &transfers[next_id % IDS];
    if (it->kind != NOTHING && it->kind != ANSWERED)
        fail("transfer %llu was never answered", (unsigned long long)it->id);
    *it = (struct transfer){.kind = kind, .endpoint = endpoint, .tag = tag, .length = length, .id = next_id++};
    waiting++;
    return it;
}

static void cancel(struct transfer *it)
{
    usbredirparser_send_cancel_data_packet(parser, it->id);
    sent++;
}

/* A transfer of a command. In front of the command it may be cancelled, and then comes again under another id. */
static void begin(enum kind kind, uint8_t endpoint, uint16_t tag, uint32_t length, const uint8_t *bytes, bool is_early)
{
    if (is_early && any(12) == 0) {
        struct transfer *first = transfer(CANCELLED, endpoint, tag, length);
        put(first, bytes);
        cancel(first);
    }
    put(transfer(kind, endpoint, tag, length), bytes);
    commands[tag].waits++;
}

/* COMMANDS */

static void number(uint8_t *at, uint32_t value)
{
    at[0] = value >> 24, at[1] = value >> 16, at[2] = value >> 8, at[3] = value;
}

static void make(struct command *it, uint16_t tag)
{
    it->count = 1 + any(16);
    it->block = (tag - 1) * OWN_BLOCKS + any(OWN_BLOCKS - 16);
    if (it->what == PAST_THE_END)
        it->block = BLOCKS - it->count + 1 + any(1000);
    memset(it->unit, 0, UNIT);
    it->unit[0] = 1;
    it->unit[2] = tag >> 8, it->unit[3] = tag;
    static const uint8_t codes[WHATS] = {0x00, 0x28, 0x2A, 0x28, 0xFF};
    it->unit[16] = codes[it->what];
    if (it->what == READ || it->what == WRITE || it->what == PAST_THE_END) {
        number(it->unit + 18, it->block);
        it->unit[24] = it->count;
    }
    if (it->what == WRITE)
        for (uint32_t at = 0; at < it->count * BLOCK; at += 4)
            number(it->data + at, any(1u << 31));
}

/* A command with its transfers, in any order. */
static void start(uint16_t tag, enum what what)
{
    struct command *it = &commands[tag];
    it->what = what;
    it->is_busy = true;
    it->waits = 0;
    busy++;
    make(it, tag);
    enum kind order[3] = {OF_STATUS, OF_IN, OF_COMMAND};
    for (int at = 2; at > 0; at--) {
        int other = any(at + 1);
        enum kind one = order[at];
        order[at] = order[other], order[other] = one;
    }
    bool is_early = true;
    for (int at = 0; at < 3; at++)
        switch (order[at]) {
        case OF_STATUS:
            begin(OF_STATUS, STATUS, tag, STATUS_ROOM, NULL, is_early);
            break;
        case OF_COMMAND:
            begin(OF_COMMAND, COMMAND, tag, UNIT, it->unit, false);
            is_early = false;
            break;
        default:
            if (what == READ || (what == PAST_THE_END && is_early))
                begin(OF_IN, DATA_IN, tag, it->count * BLOCK, NULL, is_early);
            if (what == WRITE)
                begin(OF_OUT, DATA_OUT, tag, it->count * BLOCK, it->data, is_early);
        }
}

static void check_status(const struct command *it, uint16_t tag, const uint8_t *unit, uint32_t length)
{
    if (length < 16 || unit[0] != 3 || unit[2] != tag >> 8 || unit[3] != (tag & 255))
        fail("tag %u: no Sense unit of it", tag);
    bool is_bad = it->wants_attention || it->what == PAST_THE_END || it->what == UNKNOWN;
    if (unit[6] != (is_bad ? 2 : 0) || length != (is_bad ? 34 : 16))
        fail("tag %u: status %u with %u bytes", tag, unit[6], length);
    if (!is_bad)
        return;
    uint8_t key = it->wants_attention ? 6 : 5, code = it->wants_attention ? 0x29 : it->what == UNKNOWN ? 0x20 : 0x21;
    if ((unit[18] & 15) != key || unit[28] != code)
        fail("tag %u: sense %u/%02x", tag, unit[18] & 15, unit[28]);
}

static void check_in(const struct command *it, uint16_t tag, const uint8_t *bytes, uint32_t length)
{
    if (it->what == PAST_THE_END ? length != 0 : length != it->count * BLOCK || memcmp(bytes, disk + it->block * BLOCK, length) != 0)
        fail("tag %u: %u bytes of block %u on aren't those that were written", tag, length, it->block);
}

/* A transfer of a command was answered. Its answer may be cancelled late, and then is told again. */
static void settle(struct transfer *it)
{
    struct command *owner = &commands[it->tag];
    if (!it->again && any(12) == 0) {
        it->again = true;
        cancel(it);
        put(it, it->kind == OF_COMMAND ? owner->unit : owner->data);
        return;
    }
    it->kind = ANSWERED;
    waiting--;
    if (--owner->waits > 0)
        return;
    if (owner->what == WRITE && !owner->wants_attention)
        memcpy(disk + owner->block * BLOCK, owner->data, owner->count * BLOCK);
    owner->is_busy = owner->wants_attention = false;
    busy--;
}

/* WHAT COMES */

static struct transfer *found(uint64_t id)
{
    struct transfer *it = &transfers[id % IDS];
    if (it->id != id || it->kind == NOTHING || it->kind == ANSWERED)
        fail("an answer to transfer %llu, which isn't out", (unsigned long long)id);
    answers++;
    return it;
}

static void on_bulk(void *own, uint64_t id, struct usb_redir_bulk_packet_header *head, uint8_t *data, int length)
{
    (void)own;
    struct transfer *it = found(id);
    uint32_t told = head->length | (uint32_t)head->length_high << 16;
    if (head->endpoint != it->endpoint || head->stream_id != (it->endpoint == COMMAND ? 0 : it->tag))
        fail("endpoint %02x, stream %u of transfer %llu", head->endpoint, head->stream_id, (unsigned long long)id);
    if (it->kind == CANCELLED || it->kind == REFUSED) {
        if (head->status != (it->kind == CANCELLED ? usb_redir_cancelled : it->refusal) || (it->kind == CANCELLED && told != 0) || length != 0)
            fail("status %u, length %u of transfer %llu", head->status, told, (unsigned long long)id);
        it->kind = ANSWERED;
        waiting--;
    } else {
        const struct command *owner = &commands[it->tag];
        uint32_t moved = it->kind == OF_OUT && owner->wants_attention ? 0 : it->length;
        if (head->status != usb_redir_success || (it->endpoint & 0x80 && told != (uint32_t)length) || (!(it->endpoint & 0x80) && told != moved))
            fail("status %u, length %u of transfer %llu", head->status, told, (unsigned long long)id);
        if (it->kind == OF_STATUS)
            check_status(owner, it->tag, data, told);
        if (it->kind == OF_IN)
            check_in(owner, it->tag, data, told);
        settle(it);
    }
    usbredirparser_free_packet_data(parser, data);
}

static void on_control(void *own, uint64_t id, struct usb_redir_control_packet_header *head, uint8_t *data, int length)
{
    (void)own;
    struct transfer *it = found(id);
    if (it->kind != OF_CONTROL || head->status != it->refusal || (it->refusal == 0 && (length != 2 || data[0] != 1 || data[1] != 0)))
        fail("status %u of a request of endpoint 0", head->status);
    it->kind = ANSWERED;
    waiting--;
    usbredirparser_free_packet_data(parser, data);
}

static void on_configuration(void *own, uint64_t id, struct usb_redir_configuration_status_header *head)
{
    (void)own, (void)id;
    if (head->status != usb_redir_success || head->configuration != 1)
        fail("configuration %u, status %u", head->configuration, head->status);
    waiting--, answers++;
}

static void on_setting(void *own, uint64_t id, struct usb_redir_alt_setting_status_header *head)
{
    (void)own, (void)id;
    if (head->status != usb_redir_success || head->interface != 0 || head->alt != 0)
        fail("setting %u of interface %u, status %u", head->alt, head->interface, head->status);
    waiting--, answers++;
}

static void on_streams(void *own, uint64_t id, struct usb_redir_bulk_streams_status_header *head)
{
    (void)own, (void)id;
    if (head->status != usb_redir_success || head->endpoints != 0x00060004)
        fail("streams of %08x, status %u", head->endpoints, head->status);
    waiting--, answers++;
}

static void on_connect(void *own, struct usb_redir_device_connect_header *head)
{
    (void)own;
    if (head->speed != usb_redir_speed_super)
        fail("speed %u", head->speed);
    is_connected = true;
}

static void on_interface(void *own, struct usb_redir_interface_info_header *head)
{
    (void)own;
    if (head->interface_count != 1 || head->interface_class[0] != 8 || head->interface_subclass[0] != 6 || head->interface_protocol[0] != 0x62)
        fail("its interface");
}

static void on_endpoints(void *own, struct usb_redir_ep_info_header *head)
{
    (void)own, (void)head;
}

static void on_log(void *own, int level, const char *text)
{
    (void)own;
    if (level <= usbredirparser_warning)
        fail("the library says: %s", text);
}

/* THE STREAM */

static int on_read(void *own, uint8_t *bytes, int count)
{
    (void)own;
    ssize_t got = read(peer, bytes, count);
    if (got == 0)
        fail("the disk has gone");
    return got > 0 ? (int)got : errno == EAGAIN ? 0 : -1;
}

static int on_write(void *own, uint8_t *bytes, int count)
{
    (void)own;
    ssize_t put = write(peer, bytes, count);
    return put >= 0 ? (int)put : errno == EAGAIN ? 0 : -1;
}

static void go_on(void)
{
    struct pollfd it = {.fd = peer, .events = POLLIN | (usbredirparser_has_data_to_write(parser) ? POLLOUT : 0)};
    if (poll(&it, 1, 60000) < 1)
        fail("nothing comes for a minute, %llu transfers wait", (unsigned long long)waiting);
    if (it.revents & POLLIN && usbredirparser_do_read(parser) != 0)
        fail("the library can't read what came");
    if (it.revents & POLLOUT && usbredirparser_do_write(parser) != 0)
        fail("writing");
}

static void drain(void)
{
    while (waiting > 0 || usbredirparser_has_data_to_write(parser))
        go_on();
}

/* A RUN */

/* The disk is reset or configured anew where nothing is out; the next command of each is told so once. */
static void set_up(bool by_reset)
{
    drain();
    if (by_reset) {
        usbredirparser_send_reset(parser);
        sent++;
    }
    struct usb_redir_set_configuration_header configuration = {.configuration = 1};
    usbredirparser_send_set_configuration(parser, next_id++, &configuration);
    struct usb_redir_alloc_bulk_streams_header streams = {.endpoints = 0x00060004, .no_streams = TAGS};
    usbredirparser_send_alloc_bulk_streams(parser, next_id++, &streams);
    sent += 2, waiting += 2;
    drain();
    if (by_reset) {
        commands[1].wants_attention = true;
        start(1, TEST_READY);
        drain();
    }
}

/* A packet beside the commands, whose answer is known. */
static void noise(void)
{
    struct usb_redir_control_packet_header control = {.endpoint = 0x80, .requesttype = 0x80, .length = 2};
    struct transfer *it;
    static uint8_t few[3];
    uint16_t tag = 1 + any(TAGS);
    switch (any(7)) {
    case 0:
    case 1:
        it = transfer(OF_CONTROL, 0, 0, 2);
        if (any(2)) {
            control.request = 0x55;
            it->refusal = usb_redir_stall;
        }
        usbredirparser_send_control_packet(parser, it->id, &control, NULL, 0);
        sent++;
        return;
    case 2:
        it = transfer(REFUSED, 0x83, 1, any(100));
        it->refusal = usb_redir_inval;
        break;
    case 3:
        it = transfer(REFUSED, DATA_IN, any(2) ? 0 : TAGS + 1 + any(1000), 1 + any(100));
        it->refusal = usb_redir_stall;
        break;
    case 4:
        if (commands[tag].is_busy)
            return;
        it = transfer(REFUSED, any(2) ? DATA_IN : STATUS, tag, 0);
        break;
    case 5:
        it = transfer(REFUSED, COMMAND, 0, any(4));
        break;
    default:
        if (any(2)) {
            usbredirparser_send_get_configuration(parser, next_id++);
        } else {
            struct usb_redir_get_alt_setting_header setting = {.interface = 0};
            usbredirparser_send_get_alt_setting(parser, next_id++, &setting);
        }
        sent++, waiting++;
        return;
    }
    put(it, few);
}

static pid_t begin_disk(const char *program, const char *image)
{
    int ends[2];
    if (socketpair(AF_UNIX, SOCK_STREAM, 0, ends) != 0)
        fail("socketpair");
    pid_t child = fork();
    if (child == 0) {
        dup2(ends[1], 0);
        dup2(ends[1], 1);
        close(ends[0]);
        close(ends[1]);
        execl(program, program, "usb", image, (char *)NULL);
        _exit(127);
    }
    close(ends[1]);
    peer = ends[0];
    fcntl(peer, F_SETFL, O_NONBLOCK);
    return child;
}

static void begin_parser(void)
{
    parser = usbredirparser_create();
    parser->log_func = on_log;
    parser->read_func = on_read;
    parser->write_func = on_write;
    parser->device_connect_func = on_connect;
    parser->interface_info_func = on_interface;
    parser->ep_info_func = on_endpoints;
    parser->configuration_status_func = on_configuration;
    parser->alt_setting_status_func = on_setting;
    parser->bulk_streams_status_func = on_streams;
    parser->bulk_packet_func = on_bulk;
    parser->control_packet_func = on_control;
    uint32_t capabilities[USB_REDIR_CAPS_SIZE] = {0};
    const int asked[] = {usb_redir_cap_bulk_streams, usb_redir_cap_connect_device_version, usb_redir_cap_filter,
        usb_redir_cap_ep_info_max_packet_size, usb_redir_cap_64bits_ids, usb_redir_cap_32bits_bulk_length};
    for (size_t at = 0; at < sizeof asked / sizeof *asked; at++)
        usbredirparser_caps_set_cap(capabilities, asked[at]);
    usbredirparser_init(parser, "client", capabilities, USB_REDIR_CAPS_SIZE, 0);
}

static void check_image(const char *image)
{
    static uint8_t found[sizeof disk];
    int file = open(image, O_RDONLY);
    if (file < 0 || read(file, found, sizeof found) != (ssize_t)sizeof found || memcmp(found, disk, sizeof disk) != 0)
        fail("the image isn't what was written");
}

int main(int count, char **words)
{
    if (count != 5) {
        fputs("usage: client PROGRAM IMAGE PACKETS SEED\n", stderr);
        return 2;
    }
    uint64_t packets = strtoull(words[3], NULL, 10);
    state = strtoull(words[4], NULL, 10);
    pid_t child = begin_disk(words[1], words[2]);
    begin_parser();
    while (!is_connected)
        go_on();
    set_up(true);
    uint64_t next_set_up = 50000;
    while (sent < packets) {
        uint16_t tag = 1 + any(TAGS);
        if (any(8) == 0)
            noise();
        else if (!commands[tag].is_busy)
            start(tag, any(16) == 0 ? PAST_THE_END + any(2) : any(3));
        if (busy > 96 || waiting > 400)
            while (busy > 32 || waiting > 150)
                go_on();
        if (sent > next_set_up) {
            set_up(any(2));
            next_set_up = sent + 50000;
        }
    }
    drain();
    shutdown(peer, SHUT_WR);
    int status = 0;
    if (waitpid(child, &status, 0) != child || status != 0)
        fail("the program ended with %d", status);
    check_image(words[2]);
    printf("%llu packets, %llu answers: as they should be\n", (unsigned long long)sent, (unsigned long long)answers);
    return 0;
}
