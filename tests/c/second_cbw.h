/* A second implementation of the command block wrapper of Bulk-Only Transport (BOT 5.1): its fields, or its first fault. */
#ifndef UAS_TESTS_SECOND_CBW_H
#define UAS_TESTS_SECOND_CBW_H

#include "second_events.h"

enum { CBW_BYTES = 31 };
enum cbw_fault { CBW_VALID, CBW_LENGTH, CBW_SIGNATURE, CBW_COMMAND_LENGTH };

struct bulk_cbw {
    uint8_t cdb[16], lun;
    uint32_t tag, length;
    bool in;
};

static inline enum cbw_fault bulk_read_cbw(const uint8_t *bytes, uint32_t length, struct bulk_cbw *cbw)
{
    if (length != CBW_BYTES)
        return CBW_LENGTH;
    if (little32(bytes) != 0x43425355)
        return CBW_SIGNATURE;
    uint32_t cdb_length = bytes[14] & 31;
    if (cdb_length < 1 || cdb_length > 16)
        return CBW_COMMAND_LENGTH;
    memset(cbw, 0, sizeof *cbw);
    cbw->tag = little32(bytes + 4);
    cbw->length = little32(bytes + 8);
    cbw->in = bytes[12] >> 7;
    cbw->lun = bytes[13] & 15;
    memcpy(cbw->cdb, bytes + 15, cdb_length);
    return CBW_VALID;
}

#endif
