/* SPDX-License-Identifier: Apache-2.0 */
/* uas_block.h: a driver for any xHCI controller and one SuperSpeed UAS disk behind it, for C, from a verified library (link libuas_block.a).
 *
 *     the library tells -------> uas_block_next      one access: read or write a register, load or store memory, rest
 *     you do it, and answer ---> uas_block_answer    what was read or loaded
 *     you ask -----------------> uas_block_submit    READ, WRITE, SYNCHRONIZE CACHE, UNMAP, TEST UNIT READY: many at a time
 *     the library replies <----- uas_block_take_reply
 *     the controller interrupts: uas_block_interrupted
 *
 * It takes a controller as firmware left it, brings it up, finds a UAS disk at a root port, and moves blocks. It touches neither registers nor
 * memory: it tells one access at a time, and its caller does it. So it runs in a kernel, in firmware (examples/block_uefi.c), or in a process over
 * vfio-pci (examples/block_vfio.c). uas_block_turn, at the end of this file, is the loop that does the accesses by functions of yours: what is
 * left to write are five functions, a page of memory, and an interrupt.
 *
 * Not here, and the caller's: that the PCI function is at full power, with memory space and bus mastering on; that in Intel's Panther Point and Lynx
 * Point its configuration register 0xd8 gets the value of 0xdc and 0xd0 that of 0xd4, which routes the ports; the firmware of Renesas's controllers;
 * the DMA addresses of memory, which a translation may stand before. One logical unit, 0, of one disk, at a port of the controller's own: no hubs, no
 * USB 2.
 *
 * An access stays within `bar_bytes` of registers and within the memory that was lent, whatever the controller answers. What the controller itself
 * is told to read and write is that memory and the segments of commands that have no reply: leave those in place until the reply, and the lent
 * memory until the driver was shut down, or the controller was reset, or its bus mastering is off.
 *
 * The duties of a caller are those of uas.h, for a uas_block pointer as for its others, but that a call finds 32 KiB of stack. Memory is taken by
 * uas_block_new alone. Sections are those of xHCI 1.2. */
#ifndef UAS_BLOCK_H
#define UAS_BLOCK_H

#include "uas.h"

#ifdef __cplusplus
extern "C" {
#define UAS_BLOCK_ASSERT(what) static_assert(what, #what)
#else
#define UAS_BLOCK_ASSERT(what) _Static_assert(what, #what)
#endif

typedef struct uas_block uas_block;

/* What a controller does otherwise than it tells or the standard asks: bits of `quirks`. */
enum {
    UAS_BLOCK_BROKEN_STREAMS = 1, /* its streams don't work: it is refused */
    UAS_BLOCK_32_BITS = 2,        /* addresses have 32 bits, whatever AC64 says */
    UAS_BLOCK_36_BITS = 4,        /* addresses have 36 bits */
    UAS_BLOCK_LOW_LAST = 8,       /* ERSTBA's low half is written last (Synopsys) */
    UAS_BLOCK_STALE_STREAMS = 16  /* bytes 8 to 15 of a stream's context are zeroed after Set TR Dequeue Pointer (Cadence) */
};

/* What is known of a PCI vendor's device: such bits. UAS_BLOCK_LOW_LAST is never among them, since Synopsys's has no number of its own. */
uint8_t uas_block_quirks(uint16_t vendor, uint16_t device);

struct uas_block_options {
    uint32_t bar_bytes;   /* bytes of the controller's registers: the length of BAR 0 */
    uint8_t tags;         /* the most commands at a time and one, 2 to 254; a disk or a controller may have fewer */
    uint8_t trbs;         /* the most pieces of a command's data: 7, 15, 31, 63 or 127; no piece crosses a multiple of 64 KiB */
    uint8_t address_bits; /* of what devices reach, 32 to 64 */
    uint8_t quirks;
};
UAS_BLOCK_ASSERT(sizeof(struct uas_block_options) == 8);

/* A driver for a controller of which nothing is known. It has told nothing yet. *block is for uas_block_free.
 * Faults: UAS_BLOCK_OPTIONS, UAS_NO_MEMORY. */
uint8_t uas_block_new(const struct uas_block_options *asked, uas_block **block);

/* Gives back all memory that the driver holds, but the block of malloc that the pointer is of. For uas_block_free alone. */
void uas_block_close(uas_block *block);

/* Gives all its memory back; a null pointer has none. The controller isn't told, as
 * uas_block_shut_down tells it: it may still write the memory that was lent. */
void uas_block_free(uas_block *block);

/* ---- Accesses ---- */

/* What the caller does. */
enum {
    UAS_BLOCK_READ32 = 1,  /* reads the 32 bits of a register, and answers them as 4 bytes */
    UAS_BLOCK_LOAD = 2,    /* reads `length` bytes of the lent memory, and answers them */
    UAS_BLOCK_WRITE32 = 3, /* writes `value` to a register, as one access of 32 bits */
    UAS_BLOCK_STORE = 4,   /* writes `bytes` to the lent memory */
    UAS_BLOCK_ZERO = 5,    /* writes `length` bytes 0 to the lent memory */
    UAS_BLOCK_REST = 6     /* waits for an interrupt, a call that asks something, or the time `at` in ms */
};

enum { UAS_BLOCK_LOAD_BYTES = 4096 /* the most of a LOAD, and of a ZERO */, UAS_BLOCK_STORE_BYTES = 32 /* the most of a STORE */ };

/* An access. Accesses are done one after another, each before the next call, and the controller and its caller see them in that order:
 *   - a STORE of four bytes is one store of 32 bits, and what was stored before is seen by the controller before it is. Such a word makes a TRB
 *     valid: its Cycle bit is the last to come. Where memory is coherent that is a write barrier (smp_wmb, or a release store); where it isn't, what
 *     was stored before is written back first, and then that word;
 *   - before a WRITE32, all that was stored is seen by the controller (wmb): it may be a doorbell;
 *   - a LOAD comes after the READ32 or LOAD before it (rmb): the last word of an event is read before its others. */
struct uas_block_access {
    uint8_t kind; /* UAS_BLOCK_READ32 and its like */
    uint8_t reserved[3];
    uint32_t length; /* how many bytes */
    uint64_t at;     /* the offset of a register, a multiple of 4; an address of the lent memory; until when a REST is */
    uint32_t value;  /* of WRITE32 */
    uint8_t bytes[UAS_BLOCK_STORE_BYTES]; /* of STORE */
    uint8_t reserved_too[4];
};
UAS_BLOCK_ASSERT(sizeof(struct uas_block_access) == 56 && offsetof(struct uas_block_access, bytes) == 20);

/* What the caller does next, at the time `now` in ms from any beginning. READ32 and LOAD are told again until they are answered; the others count
 * as done. No fault. */
uint8_t uas_block_next(uas_block *block, uint64_t now, struct uas_block_access *access);

/* What was read, in the order of memory: the four bytes of a READ32, the lowest first, or the `length` bytes of a LOAD. A register of all ones tells
 * that the controller is gone.
 * Faults: UAS_BLOCK_NOT_ASKED, UAS_BLOCK_LENGTH. */
uint8_t uas_block_answer(uas_block *block, const uint8_t *bytes, size_t length);

/* An interrupt of the controller came. Without interrupts, call it as often as replies are looked for. No fault. */
uint8_t uas_block_interrupted(uas_block *block);

/* ---- States ---- */

enum {
    UAS_BLOCK_SURVEYING = 1,    /* the controller's capabilities are read */
    UAS_BLOCK_WANTS_MEMORY = 2, /* `bytes` are to be lent */
    UAS_BLOCK_BRINGING_UP = 3,  /* `row`: 3 taken from firmware, 4 halted, 5 reset, 6 programmed, 7 run, 8 ports, 9 a port reset, 10 Enable Slot,
                                   11 Address Device, 12 Disable Slot */
    UAS_BLOCK_NO_DEVICE = 4,    /* until a port changes */
    UAS_BLOCK_REFUSED = 5,      /* the controller, `why` */
    UAS_BLOCK_ASKING = 6,       /* a device has its address, and is asked what it is */
    UAS_BLOCK_READY = 7,        /* commands are taken */
    UAS_BLOCK_RESTARTING = 8,   /* a disk isn't used any more, and its commands have no replies yet */
    UAS_BLOCK_SHUTTING_DOWN = 9, /* commands end, and then slot and controller are given back */
    UAS_BLOCK_STOPPED = 10,     /* the controller was reset: the memory is the caller's again */
    UAS_BLOCK_GONE = 11,        /* the controller is */
    UAS_BLOCK_DEAD = 12         /* it can't be used until it is reset from outside; the memory is its own until its bus mastering is off */
};

/* Why a controller, or the device at a port, isn't used. */
enum {
    UAS_BLOCK_TOO_OLD = 1,        /* older than xHCI 1.0 */
    UAS_BLOCK_SMALL_BAR = 2,      /* registers behind `bar_bytes` */
    UAS_BLOCK_BAD_LIST = 3,       /* the list of extended capabilities leaves the registers, names ports that aren't there, or doesn't end */
    UAS_BLOCK_NO_SLOTS = 4,
    UAS_BLOCK_NO_PORTS = 5,       /* none of USB 3 */
    UAS_BLOCK_NO_STREAMS = 6,
    UAS_BLOCK_PAGE_SIZE = 7,      /* above 64 KiB */
    UAS_BLOCK_STILL_RUNS = 8,     /* it can't be halted */
    UAS_BLOCK_NO_RESET = 9,       /* the port's reset didn't end with a device */
    UAS_BLOCK_NOT_SUPER_SPEED = 10,
    UAS_BLOCK_NO_ADDRESS = 11,
    UAS_BLOCK_SILENT = 12,        /* three times */
    UAS_BLOCK_BAD_DEVICE = 13,    /* its device descriptor */
    UAS_BLOCK_HUB = 14,
    UAS_BLOCK_LONG_CONFIGURATION = 15,
    UAS_BLOCK_BAD_DESCRIPTOR = 16,
    UAS_BLOCK_NO_UAS = 17,        /* no interface of it */
    UAS_BLOCK_BAD_PIPES = 18,
    UAS_BLOCK_NO_COMPANION = 19,  /* an endpoint of a pipe has none */
    UAS_BLOCK_BROKEN_UAS = 20,    /* a bridge on which it doesn't work */
    UAS_BLOCK_NOT_CONFIGURED = 21,
    UAS_BLOCK_NOT_A_DISK = 22,
    UAS_BLOCK_NO_MEDIUM = 23,
    UAS_BLOCK_NEVER_READY = 24,
    UAS_BLOCK_BAD_CAPACITY = 25,
    UAS_BLOCK_BLOCK_LENGTH = 26   /* not 512 to 4,096 bytes */
};

struct uas_block_state {
    uint8_t state;        /* UAS_BLOCK_SURVEYING and its like */
    uint8_t row;          /* of BRINGING_UP */
    uint8_t why;          /* of REFUSED */
    bool can_unmap;       /* this and all behind it of READY */
    bool has_fua;
    uint16_t tags;        /* at most so many commands and one are taken at a time */
    uint32_t bytes;       /* of WANTS_MEMORY */
    uint32_t block_bytes; /* 512 to 4,096 */
    uint64_t disk;        /* its number: another one after a disconnect, and where a restart finds another disk */
    uint64_t blocks;
    uint32_t most_blocks; /* of one READ or WRITE; 0 for no limit */
    uint32_t most_unmap;  /* of one UNMAP; 0 for no limit */
};

/* Where the driver is. No fault. */
uint8_t uas_block_state(const uas_block *block, struct uas_block_state *state);

/* Why the device at a port isn't used, UAS_BLOCK_NO_RESET and its like; 0 where it is, or there is none. */
uint8_t uas_block_refusal(const uas_block *block, uint8_t port);

/* Lends the `bytes` of memory that the state wants, from the DMA address `base` on. They are the driver's and the controller's until the driver is
 * ended; what stands in them doesn't matter.
 * Faults: UAS_BLOCK_NOT_ASKED (no memory is wanted), UAS_BLOCK_ALIGNMENT (`base` is no multiple of 65,536), UAS_BLOCK_REACH (it ends above the
 * address bits of the options or of the controller, or crosses a multiple of 2^32). */
uint8_t uas_block_lend(uas_block *block, uint64_t base);

/* ---- Commands ---- */

enum {
    UAS_BLOCK_REQUEST_READ = 1,
    UAS_BLOCK_REQUEST_WRITE = 2,
    UAS_BLOCK_REQUEST_SYNC = 3,  /* all blocks written are brought to the medium; no data */
    UAS_BLOCK_REQUEST_UNMAP = 4, /* no data of the caller's */
    UAS_BLOCK_REQUEST_READY = 5  /* whether the disk is ready; no data */
};

struct uas_block_request {
    uint64_t disk;  /* as the state told it: no write meets a disk that was changed meanwhile */
    uint64_t block; /* of READ, WRITE, UNMAP: the first */
    uint64_t mark;  /* comes back with the reply */
    uint64_t limit; /* the time in ms from which on it is aborted */
    uint32_t count; /* of READ, WRITE, UNMAP: blocks */
    uint8_t kind;   /* UAS_BLOCK_REQUEST_... */
    bool fua;       /* of WRITE: it is on the medium when it is done */
    uint8_t reserved[2];
};
UAS_BLOCK_ASSERT(sizeof(struct uas_block_request) == 40);

/* Memory of a command's data: `length` bytes from a DMA address on, both multiples of 512. */
struct uas_segment {
    uint64_t address;
    uint32_t length;
    uint32_t reserved;
};
UAS_BLOCK_ASSERT(sizeof(struct uas_segment) == 16);

/* Submits a command, whose data lie in `count` segments, in order; *tag is its tag, which its reply has too. It begins with the next accesses. The
 * segments are the controller's until the reply.
 * Faults: UAS_BLOCK_CALL (no such kind), UAS_BLOCK_PIECES (more than 127 segments), UAS_BLOCK_NOT_READY, UAS_BLOCK_OTHER_DISK, UAS_BLOCK_RANGE,
 * UAS_BLOCK_TOO_LONG, UAS_BLOCK_NO_UNMAP, UAS_BLOCK_NO_FUA, UAS_BLOCK_LENGTH (other bytes than the blocks have, or a segment of none),
 * UAS_BLOCK_ALIGNMENT, UAS_BLOCK_REACH (a segment that the controller doesn't reach), UAS_BLOCK_PIECES (more than `trbs`), UAS_BLOCK_NO_TAG. */
uint8_t uas_block_submit(uas_block *block, const struct uas_block_request *request, const struct uas_segment *segments, size_t count,
                         uint16_t *tag);

/* How a command ended. */
enum {
    UAS_BLOCK_GOOD = 1,     /* GOOD, and all bytes were moved */
    UAS_BLOCK_SHORT = 2,    /* GOOD, but fewer bytes were */
    UAS_BLOCK_STATUS = 3,   /* another status, `code`, with its sense */
    UAS_BLOCK_RESPONSE = 4, /* the disk didn't take its information unit: `code` of its Response */
    UAS_BLOCK_ABORTED = 5,  /* the disk aborted it, or it wasn't begun */
    UAS_BLOCK_LOST = 6      /* it isn't known what it came to, and it may have been done: `code` is UAS_BLOCK_LOST_... */
};

enum {
    UAS_BLOCK_LOST_LATE = 1,     /* a command was to be aborted, and the disk didn't */
    UAS_BLOCK_LOST_FAILED = 2,   /* a TD failed */
    UAS_BLOCK_LOST_BAD_UNIT = 3, /* a status unit was of another tag, of no command, or too short */
    UAS_BLOCK_LOST_DISABLED = 4, /* the port was disabled, or its link hung */
    UAS_BLOCK_LOST_PULLED = 5,   /* the disk was taken from its port */
    UAS_BLOCK_LOST_BROKEN = 6,   /* the controller had an error, or halted */
    UAS_BLOCK_LOST_GONE = 7,     /* the controller is gone */
    UAS_BLOCK_LOST_RESTARTED = 8 /* uas_block_restart */
};

struct uas_block_reply {
    uint64_t mark;
    uint32_t moved;  /* bytes of its data */
    uint16_t tag;
    uint8_t kind;    /* UAS_BLOCK_GOOD and its like */
    uint8_t code;
    uint8_t sense_length;
    uint8_t sense[96];
    uint8_t reserved[7];
};
UAS_BLOCK_ASSERT(sizeof(struct uas_block_reply) == 120);

/* The reply of the lowest tag that has one, whose segments are the caller's again; false where none has one, and then *reply is as it was. Each
 * command that was submitted gets one reply. */
bool uas_block_take_reply(uas_block *block, struct uas_block_reply *reply);

/* Aborts the command on a tag: its reply says so, or what its status said that came first. Where the disk doesn't abort it, the device is tried again,
 * and all commands are lost.
 * Faults: UAS_BLOCK_NO_SUCH_TAG. */
uint8_t uas_block_abort(uas_block *block, uint16_t tag);

/* Shuts the driver down: no command is taken any more, all that are out have their replies, the disk brings its blocks to the medium, and the
 * controller is reset, which brings the disk back to Bulk-Only Transport for firmware. It goes on with the next accesses, up to UAS_BLOCK_STOPPED.
 * Faults: UAS_BLOCK_NOT_READY. */
uint8_t uas_block_shut_down(uas_block *block);

/* Tries the device again, from its port's reset on; all commands that are out are lost.
 * Faults: UAS_BLOCK_NOT_READY. */
uint8_t uas_block_restart(uas_block *block);

/* ---- The door ---- */

/* Which call. */
enum {
    UAS_BLOCK_CALL_NEXT = 1,
    UAS_BLOCK_CALL_ANSWER = 2,
    UAS_BLOCK_CALL_INTERRUPTED = 3,
    UAS_BLOCK_CALL_STATE = 4,
    UAS_BLOCK_CALL_LEND = 5,
    UAS_BLOCK_CALL_REPLY = 6,
    UAS_BLOCK_CALL_RESTART = 7,
    UAS_BLOCK_CALL_REFUSAL = 8,
    UAS_BLOCK_CALL_ABORT = 9,
    UAS_BLOCK_CALL_SHUT_DOWN = 10
};

/* What goes in and comes out beside the bytes, where a call has it. */
struct uas_block_door {
    uint8_t call;         /* in: UAS_BLOCK_CALL_... */
    uint8_t kind;         /* out of NEXT: the access; of STATE: the state; of REPLY: how the command ended */
    uint8_t code;         /* in of REFUSAL: a port; out of REFUSAL: why; of STATE: the row, or why; of REPLY: status, response, loss */
    uint8_t good;         /* out of REPLY: 1 where there is one */
    uint16_t tag;         /* in of ABORT; out of STATE: tags; of REPLY */
    uint8_t can_unmap;    /* out of STATE */
    uint8_t has_fua;      /* out of STATE */
    uint32_t length;      /* out of NEXT; of STATE: bytes that are wanted; of REPLY: bytes that were moved */
    uint32_t value;       /* out of NEXT; of REPLY: bytes of sense */
    uint64_t at;          /* in of NEXT: the time; of LEND: the address; out of NEXT */
    uint64_t number;      /* out of STATE: the disk; of REPLY: the mark */
    uint64_t blocks;      /* out of STATE, as the next three */
    uint32_t block_bytes, most_blocks, most_unmap;
    uint32_t reserved;
};
UAS_BLOCK_ASSERT(sizeof(struct uas_block_door) == 56 && offsetof(struct uas_block_door, at) == 16);

/* Any call of the driver but submissions; those above are easier to use. NEXT writes what is stored to the first of at least 32 bytes, REPLY the sense
 * to those of at least 96; ANSWER reads the bytes; the others have none, and `length` may be 0.
 * Faults: UAS_BLOCK_CALL, and those of the call. */
uint8_t uas_block_call(uas_block *block, struct uas_block_door *door, uint8_t *bytes, size_t length);

/* A command, as the driver takes it. */
struct uas_block_command {
    uint64_t disk, block, mark, limit; /* in */
    uint32_t count;                    /* in */
    uint16_t tag;                      /* out */
    uint8_t kind, fua;                 /* in */
};
UAS_BLOCK_ASSERT(sizeof(struct uas_block_command) == 40 && offsetof(struct uas_block_command, tag) == 36);

/* uas_block_submit as the one call that it makes: the segments aren't written.
 * Faults: those of uas_block_submit. */
uint8_t uas_block_put(uas_block *block, struct uas_block_command *command, struct uas_segment *segments, size_t count);

/* ---- The loop ---- */

/* What a driver's user does for it. The rules of struct uas_block_access are these functions': `store` of four bytes has the barrier before it, and
 * writes them by one store; `write32` has one before it, `load` one before it. */
struct uas_block_user {
    void *context; /* the first argument of each */
    uint32_t (*read32)(void *context, uint32_t offset);
    void (*write32)(void *context, uint32_t offset, uint32_t value);
    void (*load)(void *context, uint64_t address, uint8_t *bytes, uint32_t length);
    void (*store)(void *context, uint64_t address, const uint8_t *bytes, uint32_t length);
    uint64_t (*now)(void *context); /* in ms */
    uint8_t *buffer;                /* UAS_BLOCK_LOAD_BYTES of memory for what is loaded */
};

/* Stores bytes 0, so many at a time as are here. */
static inline void uas_block_zero(const struct uas_block_user *user, uint64_t address, uint32_t length)
{
    static const uint8_t zeros[64] = { 0 };
    while (length > 0) {
        uint32_t count = length < sizeof zeros ? length : (uint32_t)sizeof zeros;
        user->store(user->context, address, zeros, count);
        address += count;
        length -= count;
    }
}

/* Does one access, and answers it; true where it was none, but a rest. */
static inline bool uas_block_do(uas_block *block, const struct uas_block_user *user, const struct uas_block_access *access)
{
    uint32_t word;
    uint8_t bytes[4];
    switch (access->kind) {
    case UAS_BLOCK_READ32:
        word = user->read32(user->context, (uint32_t)access->at);
        bytes[0] = (uint8_t)word;
        bytes[1] = (uint8_t)(word >> 8);
        bytes[2] = (uint8_t)(word >> 16);
        bytes[3] = (uint8_t)(word >> 24);
        uas_block_answer(block, bytes, sizeof bytes);
        return false;
    case UAS_BLOCK_LOAD:
        user->load(user->context, access->at, user->buffer, access->length);
        uas_block_answer(block, user->buffer, access->length);
        return false;
    case UAS_BLOCK_WRITE32:
        user->write32(user->context, (uint32_t)access->at, access->value);
        return false;
    case UAS_BLOCK_STORE:
        user->store(user->context, access->at, access->bytes, access->length);
        return false;
    case UAS_BLOCK_ZERO:
        uas_block_zero(user, access->at, access->length);
        return false;
    default:
        return true;
    }
}

/* Does what there is to do now, at most `budget` accesses, and tells until when there is nothing more: a time in ms, UINT64_MAX for no time. It is 0
 * where the budget was spent. To be called at that time, and before it after uas_block_interrupted, uas_block_submit, uas_block_abort,
 * uas_block_lend, uas_block_restart and uas_block_shut_down; after it replies are to be taken. */
static inline uint64_t uas_block_turn(uas_block *block, const struct uas_block_user *user, uint32_t budget)
{
    struct uas_block_access access;
    for (; budget > 0; budget--) {
        uint64_t now = user->now(user->context);
        uas_block_next(block, now, &access);
        if (uas_block_do(block, user, &access) && access.at > now)
            return access.at;
    }
    return 0;
}

#ifdef __cplusplus
}
#endif
#endif
