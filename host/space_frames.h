/* Frames built, records read, and names for people, on top of space.h. No host needs it; each function says in C what
 * docs/MANUAL.md says in tables. */
#ifndef SPACE_FRAMES_H
#define SPACE_FRAMES_H

#include <string.h>
#include "space.h"

#ifdef __cplusplus
extern "C" {
#endif

/* The length of an operation's frame; 0 if the operation is not 1-11. */
static inline size_t space_frame_bytes(uint8_t operation)
{
    switch (operation) {
    case SPACE_OP_WRITE: return SPACE_WRITE_BYTES;
    case SPACE_OP_READ: case SPACE_OP_TAKE:
    case SPACE_OP_READ_IF_EXISTS: case SPACE_OP_TAKE_IF_EXISTS: return SPACE_LOOK_UP_BYTES;
    case SPACE_OP_CREATE: return SPACE_CREATE_BYTES;
    case SPACE_OP_COMMIT: return SPACE_COMMIT_BYTES;
    case SPACE_OP_ABORT: return SPACE_ABORT_BYTES;
    case SPACE_OP_TICK: return SPACE_TICK_BYTES;
    case SPACE_OP_NOTIFY: return SPACE_NOTIFY_BYTES;
    case SPACE_OP_RENEW: return SPACE_RENEW_BYTES;
    default: return 0;
    }
}

/* The builders put a frame at `frame`, which has room for SPACE_MAX_FRAME_BYTES, and return its length. They check
 * nothing: the space does. A transaction of 0 is none; a lease or timeout may be SPACE_FOREVER. */

static inline size_t space_frame(uint8_t *frame, uint8_t operation, uint8_t party)
{
    memset(frame, 0, SPACE_MAX_FRAME_BYTES);
    frame[0] = operation;
    frame[1] = party;
    return space_frame_bytes(operation);
}

/* Fields whose bit in the blanks is 1 are not looked at. */
static inline size_t space_frame_write_blanks(uint8_t *frame, uint8_t party, uint8_t blanks, const uint32_t fields[4],
                                              uint32_t lease, uint32_t transaction)
{
    size_t length = space_frame(frame, SPACE_OP_WRITE, party);
    frame[2] = blanks;
    space_put_word(frame + SPACE_FRAME_AT_TRANSACTION, transaction);
    space_put_word(frame + SPACE_FRAME_AT_DURATION, lease);
    for (int i = 0; i < 4; i++)
        if (!(blanks >> i & 1))
            space_put_word(frame + SPACE_FRAME_AT_FIELDS + 4 * i, fields[i]);
    return length;
}

/* A write with no blanks. */
static inline size_t space_frame_write(uint8_t *frame, uint8_t party, const uint32_t fields[4], uint32_t lease,
                                       uint32_t transaction)
{
    return space_frame_write_blanks(frame, party, 0, fields, lease, transaction);
}

/* Fields whose bit in the mask is 0 are not looked at; the others match no blank. With SPACE_MASK_ARC the place is an
 * arc: space_arc(start, length). */
static inline void space_put_template(uint8_t *frame, uint8_t mask, const uint32_t fields[4])
{
    int asked = mask & SPACE_MASK_ARC ? mask | SPACE_MASK_PLACE : mask;
    frame[2] = mask;
    for (int i = 0; i < 4; i++)
        if (asked >> i & 1)
            space_put_word(frame + SPACE_FRAME_AT_FIELDS + 4 * i, fields[i]);
}

/* Read, take, readIfExists or takeIfExists. Of several available entries the one with the lowest number is found. */
static inline size_t space_frame_look_up(uint8_t *frame, uint8_t operation, uint8_t party, uint8_t mask,
                                         const uint32_t fields[4], uint32_t timeout, uint32_t transaction)
{
    size_t length = space_frame(frame, operation, party);
    space_put_template(frame, mask, fields);
    space_put_word(frame + SPACE_FRAME_AT_TRANSACTION, transaction);
    space_put_word(frame + SPACE_FRAME_AT_DURATION, timeout);
    return length;
}

static inline size_t space_frame_create(uint8_t *frame, uint8_t party, uint32_t lease)
{
    size_t length = space_frame(frame, SPACE_OP_CREATE, party);
    space_put_word(frame + SPACE_FRAME_AT_DURATION, lease);
    return length;
}

static inline size_t space_frame_commit(uint8_t *frame, uint8_t party, uint32_t transaction)
{
    size_t length = space_frame(frame, SPACE_OP_COMMIT, party);
    space_put_word(frame + SPACE_FRAME_AT_TRANSACTION, transaction);
    return length;
}

static inline size_t space_frame_abort(uint8_t *frame, uint8_t party, uint32_t transaction)
{
    size_t length = space_frame(frame, SPACE_OP_ABORT, party);
    space_put_word(frame + SPACE_FRAME_AT_TRANSACTION, transaction);
    return length;
}

static inline size_t space_frame_tick(uint8_t *frame)
{
    return space_frame(frame, SPACE_OP_TICK, 0);
}

/* The party registers: until the lease is over, it gets a rung record in each step in which entries that match become
 * public, by a write or a commit. */
static inline size_t space_frame_notify(uint8_t *frame, uint8_t party, uint8_t mask, const uint32_t fields[4],
                                        uint32_t lease)
{
    size_t length = space_frame(frame, SPACE_OP_NOTIFY, party);
    space_put_template(frame, mask, fields);
    space_put_word(frame + SPACE_FRAME_AT_DURATION, lease);
    return length;
}

/* The party renews an entry that it wrote: it ends at clock + lease then, with SPACE_FOREVER never; with lease 0 it is
 * removed. */
static inline size_t space_frame_renew(uint8_t *frame, uint8_t party, uint32_t entry, uint32_t lease)
{
    size_t length = space_frame(frame, SPACE_OP_RENEW, party);
    space_put_word(frame + SPACE_FRAME_AT_ENTRY, entry);
    space_put_word(frame + SPACE_FRAME_AT_DURATION, lease);
    return length;
}

/* In a notified and a rung the entry is the registration's number; a rung's first field is its count, the second its
 * total. */
struct space_record {
    uint8_t kind, party, refusal, blanks;
    uint32_t transaction, entry, fields[4];
};

/* The record with this place, from 0, in an answers area. */
static inline struct space_record space_record_at(const uint8_t *answers, uint32_t place)
{
    const uint8_t *at = answers + SPACE_RECORD_BYTES * (size_t)place;
    struct space_record record;
    record.kind = at[0];
    record.party = at[1];
    record.refusal = at[2];
    record.blanks = at[SPACE_RECORD_AT_BLANKS];
    record.transaction = space_get_word(at + SPACE_RECORD_AT_TRANSACTION);
    record.entry = space_get_word(at + SPACE_RECORD_AT_ENTRY);
    for (int i = 0; i < 4; i++)
        record.fields[i] = space_get_word(at + SPACE_RECORD_AT_FIELDS + 4 * i);
    return record;
}

/* The names of operations, record kinds and fields, and what a refusal means; "?" for numbers that there are not. */

static inline const char *space_operation_name(uint8_t operation)
{
    static const char *const names[] = {"?", "write", "read", "take", "readIfExists", "takeIfExists", "create",
                                        "commit", "abort", "tick", "notify", "renew"};
    return operation < sizeof names / sizeof names[0] ? names[operation] : "?";
}

static inline const char *space_record_name(uint8_t kind)
{
    static const char *const names[] = {"?", "written", "found", "nothing", "waiting", "created", "committed",
                                        "aborted", "exception", "ticked", "notified", "rung", "renewed", "?", "?",
                                        "refused"};
    return kind < sizeof names / sizeof names[0] ? names[kind] : "?";
}

static inline const char *space_field_name(int place)
{
    static const char *const names[] = {"kind", "side", "image", "place"};
    return place >= 0 && place < 4 ? names[place] : "?";
}

static inline const char *space_refusal_meaning(uint32_t number)
{
    static const char *const meanings[] = {
        "?",
        "the answers area has under 700 bytes",
        "the frame is empty, or its operation is not 1-11",
        "the frame's length is not its operation's",
        "byte 3, the mask, a field that must be 0 or a create's or notify's transaction is not as it must be",
        "the party is not 1-16, or not 0 for tick",
        "the party has a waiting look-up that the frame does not withdraw",
        "the transaction is not live",
        "the transaction is another party's",
        "create or notify with lease 0",
        "the lease, the timeout or the tick ends after 4294967294",
        "64 entries are stored",
        "8 transactions are live",
        "the numbers are used up",
        "?", /* 14 is never given out */
        "the tray is too short, too long or has too many frames",
        "a pair of the tray is out of order or runs past its end",
        "8 registrations are live",
        "no stored entry has that number",
        "another party wrote the entry",
        "the entry is private or held",
        "an arc's start or length, a place, an hour or a minute is out of range",
        "no export: too many transactions or actions, a number written twice, other words, or no room for the order",
        "no setup: panes not 1-4, too many starting entries, other words, or no room for the counts",
        "the trial has more than 1,000 rounds",
        "64 trays were handed in already"};
    return number < sizeof meanings / sizeof meanings[0] ? meanings[number] : "?";
}

#ifdef __cplusplus
}
#endif

#endif
