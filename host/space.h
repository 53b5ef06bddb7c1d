/* The shared space, for hosts in C (x86-64). Link with libspace.a, which `rt lib`, in crates/space, writes to
 * its out/. space_frames.h, beside this file, builds frames, reads records and has names for people.
 *
 * All numbers in frames, records and trays are little-endian and unsigned. No function keeps a pointer, allocates,
 * or uses memory besides its buffers and the stack. The buffers of a call must not overlap. A pointer may be null
 * if its length is 0. No content of a frame, a tray or a space is an error: each gets its answer. */
#ifndef SPACE_H
#define SPACE_H

#include <stddef.h>
#include <stdint.h>

#ifdef __cplusplus
extern "C" {
#endif

/* Raised with each change of what a host sees: functions, frames, records, numbers, limits, the layout of the words.
 * 2: of several available entries the one with the lowest number is found. 3: no refusal has the number 14.
 * 4: an abort of the transaction in which its party's look-up waits is carried out. 5: a waiting IfExists look-up with
 * no conflicting entry left gets nothing at once. 6: a write's mask tells blank fields, so does byte 3 of a found.
 * 7: an entry remembers the party that wrote it, which can renew it: operation 11, kind 12, refusals 18 to 20.
 * 8: a registration tells its party of new entries: operation 10, kinds 10 and 11, refusal 17, more words.
 * 9: a template may ask for an arc of the clock face, and three functions convert and mirror its places: mask bit 4,
 * refusal 21. 10: a function tells how big an area a tray wants. 11: a function finds an order that accounts for
 * transactions: refusal 22. 12: a function tries leases with trial panes: refusals 23 and 24. */
#define SPACE_VERSION 12

#define SPACE_MAX_ENTRIES 64         /* entries stored at most */
#define SPACE_MAX_TRANSACTIONS 8     /* transactions live at most */
#define SPACE_MAX_WAITING 16         /* look-ups waiting at most */
#define SPACE_MAX_REGISTRATIONS 8    /* registrations live at most */
#define SPACE_MAX_PARTY 16           /* parties are 1 to 16 */
#define SPACE_MAX_STEP_RECORDS 25    /* records of a step at most */
#define SPACE_MAX_TRAY_BYTES 65536   /* bytes of a tray at most */
#define SPACE_MAX_TRAY_FRAMES 2000   /* frames of a tray at most */
#define SPACE_RECORD_BYTES 28        /* bytes of a record */
#define SPACE_STEP_BYTES (SPACE_MAX_STEP_RECORDS * SPACE_RECORD_BYTES) /* room that a frame needs for its answers */
#define SPACE_FOREVER 4294967295u
#define SPACE_PLACES 720             /* places of the clock face: 0 to 719, a minute of an hour each, 12:00 being 0 */

/* Frame: byte 0 operation, 1 party (0 for tick), 2 mask, 3 zero, then words at these offsets. */
#define SPACE_FRAME_AT_TRANSACTION 4
#define SPACE_FRAME_AT_ENTRY 4       /* of a renew, which names no transaction */
#define SPACE_FRAME_AT_DURATION 8    /* lease or timeout */
#define SPACE_FRAME_AT_FIELDS 12     /* kind, side, image, place */

enum space_operation {
    SPACE_OP_WRITE = 1,
    SPACE_OP_READ = 2,
    SPACE_OP_TAKE = 3,
    SPACE_OP_READ_IF_EXISTS = 4,
    SPACE_OP_TAKE_IF_EXISTS = 5,
    SPACE_OP_CREATE = 6,
    SPACE_OP_COMMIT = 7,
    SPACE_OP_ABORT = 8,
    SPACE_OP_TICK = 9,
    SPACE_OP_NOTIFY = 10,
    SPACE_OP_RENEW = 11
};

/* Lengths of frames. */
#define SPACE_WRITE_BYTES 28
#define SPACE_LOOK_UP_BYTES 28       /* read, take, readIfExists, takeIfExists */
#define SPACE_CREATE_BYTES 12
#define SPACE_COMMIT_BYTES 8
#define SPACE_ABORT_BYTES 8
#define SPACE_TICK_BYTES 4
#define SPACE_NOTIFY_BYTES 28        /* its transaction is 0 */
#define SPACE_RENEW_BYTES 12
#define SPACE_MAX_FRAME_BYTES 28

/* Tray: a count of frames, a pair of offset and length for each, the frames. */
#define SPACE_TRAY_COUNT_BYTES 4
#define SPACE_TRAY_PAIR_BYTES 8

/* Mask bits. In a look-up and a notify: the fields to which the template gives a value; the others must be 0. In a
 * write: the fields that are blank; these must be 0. In other frames the mask is 0. A template's value, be it 0, never
 * matches a blank; a field without one matches blanks and values alike. SPACE_MASK_ARC, in a look-up or a notify and
 * without SPACE_MASK_PLACE, makes the place an arc of the clock face: start + 65536 * length (space_arc). It matches a
 * place p from 0 to 719 exactly if (p - start) modulo 720 is at most the length: both ends belong to it, and length 719
 * is the whole face. Blanks and larger places never match. */
#define SPACE_MASK_KIND 1
#define SPACE_MASK_SIDE 2
#define SPACE_MASK_IMAGE 4
#define SPACE_MASK_PLACE 8
#define SPACE_MASK_ARC 16

/* Record: byte 0 kind, 1 party, 2 refusal number, 3 the blanks of the entry found (0 in every other kind), then words
 * at these offsets. */
#define SPACE_RECORD_AT_BLANKS 3
#define SPACE_RECORD_AT_TRANSACTION 4
#define SPACE_RECORD_AT_ENTRY 8
#define SPACE_RECORD_AT_REGISTRATION 8 /* of a notified and a rung, which name no entry */
#define SPACE_RECORD_AT_FIELDS 12
#define SPACE_RECORD_AT_COUNT 12     /* of a rung, in the place of kind: matching entries that the step made public */
#define SPACE_RECORD_AT_TOTAL 16     /* of a rung, in the place of side: all since the registration, these too */

/* A found record has the available entry with the lowest entry number, at once as in service: the oldest. So the
 * answer to every list of frames is fixed, to the last byte. */
enum space_record_kind {
    SPACE_RECORD_WRITTEN = 1,
    SPACE_RECORD_FOUND = 2,
    SPACE_RECORD_NOTHING = 3,
    SPACE_RECORD_WAITING = 4,
    SPACE_RECORD_CREATED = 5,
    SPACE_RECORD_COMMITTED = 6,
    SPACE_RECORD_ABORTED = 7,
    SPACE_RECORD_EXCEPTION = 8,
    SPACE_RECORD_TICKED = 9,
    SPACE_RECORD_NOTIFIED = 10,      /* a registration is made */
    SPACE_RECORD_RUNG = 11,          /* its bell, behind all other records of the step, by registration number */
    SPACE_RECORD_RENEWED = 12,
    SPACE_RECORD_REFUSED = 15
};

/* Numbers 1 to 13 and 17 to 21 are of a frame, 15 and 16 of a tray, 22 of an export, 23 and 24 of a trial, 25 of a
 * report; 0 is no refusal. 14 is never given out.
 * docs/MANUAL.md says what to do about each. A look-up is judged by 1 to 5, 21, 6, 7, 8 and 10, in this order; a notify
 * by 1 to 5, 21, 6, 9, 10, 17 and 13; a renew by 1 to 6, 18, 19, 20 and 10. The functions of the clock face give 21. */
enum space_refusal {
    SPACE_REFUSAL_AREA_TOO_SMALL = 1,
    SPACE_REFUSAL_BAD_OPERATION = 2,
    SPACE_REFUSAL_BAD_LENGTH = 3,
    SPACE_REFUSAL_BAD_FORM = 4,
    SPACE_REFUSAL_BAD_PARTY = 5,
    SPACE_REFUSAL_PARTY_WAITS = 6,
    SPACE_REFUSAL_NOT_LIVE = 7,
    SPACE_REFUSAL_NOT_OWNER = 8,
    SPACE_REFUSAL_WITHOUT_LEASE = 9, /* a create or a notify */
    SPACE_REFUSAL_TOO_LATE = 10,
    SPACE_REFUSAL_ENTRIES_FULL = 11,
    SPACE_REFUSAL_TRANSACTIONS_FULL = 12,
    SPACE_REFUSAL_NUMBERS_USED_UP = 13,
    SPACE_REFUSAL_BAD_TRAY = 15,
    SPACE_REFUSAL_BAD_PAIR = 16,
    SPACE_REFUSAL_REGISTRATIONS_FULL = 17,
    SPACE_REFUSAL_NO_ENTRY = 18,     /* no stored entry has the number that a renew names */
    SPACE_REFUSAL_NOT_WRITER = 19,   /* another party wrote it */
    SPACE_REFUSAL_ENTRY_HELD = 20,   /* it is private or held, be it by the party's own transaction */
    SPACE_REFUSAL_BAD_PLACE = 21,    /* an arc's start or length, a place, an hour or a minute is out of range */
    SPACE_REFUSAL_BAD_EXPORT = 22,   /* space_find_order takes no such export, or `order` is too short for it */
    SPACE_REFUSAL_BAD_SETUP = 23,    /* space_trial takes no such setup, or `counts` is too short for it */
    SPACE_REFUSAL_TOO_MANY_ROUNDS = 24, /* a trial of more than 1,000 rounds */
    SPACE_REFUSAL_TOO_MANY_TRAYS = 25 /* 64 trays were handed in to the report already */
};

/* A study export, for space_find_order: transactions without their order, as words. First the number of transactions,
 * then for each the number of its actions, and for each action its kind and the number of the entry. */
#define SPACE_ORDER_MAX_TRANSACTIONS 6 /* transactions of an export at most */
#define SPACE_ORDER_MAX_ACTIONS 8      /* actions of a transaction at most */
#define SPACE_ORDER_TRANSACTION_WORDS (1 + 2 * SPACE_ORDER_MAX_ACTIONS) /* of a transaction at most */
#define SPACE_ORDER_MAX_WORDS (1 + SPACE_ORDER_MAX_TRANSACTIONS * SPACE_ORDER_TRANSACTION_WORDS) /* of an export */

enum space_order_kind {
    SPACE_ORDER_WRITE = 1,
    SPACE_ORDER_READ = 2,            /* a read that found the entry */
    SPACE_ORDER_TAKE = 3             /* a take that found it */
};

/* The setup of a trial, for space_trial, as words: at these places the rounds, the number of panes and the number of
 * starting entries, then the panes and then the starting entries, one behind the other. */
#define SPACE_TRIAL_MAX_ROUNDS 1000
#define SPACE_TRIAL_MAX_PANES 4
#define SPACE_TRIAL_MAX_STARTING 8
#define SPACE_TRIAL_ROUNDS 0
#define SPACE_TRIAL_PANE_COUNT 1
#define SPACE_TRIAL_STARTING_COUNT 2
#define SPACE_TRIAL_PANES_AT 3

/* The words of a pane. */
#define SPACE_PANE_LEASE 0           /* of its transactions */
#define SPACE_PANE_TIMEOUT 1         /* of its takes */
#define SPACE_PANE_TAKES 2           /* kind */
#define SPACE_PANE_WRITTEN_LEASE 3   /* of what it writes */
#define SPACE_PANE_WRITES 4          /* kind */
#define SPACE_PANE_HOLD 5            /* ticks */
#define SPACE_PANE_WORDS 6

/* The words of a starting entry. */
#define SPACE_STARTING_FIELDS 0      /* kind, side, image, place */
#define SPACE_STARTING_LEASE 4
#define SPACE_STARTING_WORDS 5

/* The words that are counted of a pane. */
#define SPACE_COUNT_COMMITS 0
#define SPACE_COUNT_EXCEPTIONS 1
#define SPACE_COUNT_NOTHINGS 2
#define SPACE_COUNT_WORDS 3

#define SPACE_TRIAL_MAX_WORDS (SPACE_TRIAL_PANES_AT + SPACE_PANE_WORDS * SPACE_TRIAL_MAX_PANES + \
                               SPACE_STARTING_WORDS * SPACE_TRIAL_MAX_STARTING) /* of a setup at most */
#define SPACE_TRIAL_MAX_COUNTS (SPACE_COUNT_WORDS * SPACE_TRIAL_MAX_PANES)      /* words counted at most */

/* A report of waiting times, for sittings_add, to be read only, as words: at these places the trays handed in and those
 * of them that were refused, then the figures of parties 1 to 16, one behind the other (space_report_figures). */
#define SPACE_REPORT_MAX_TRAYS 64    /* trays handed in at most */
#define SPACE_REPORT_HANDED_IN 0
#define SPACE_REPORT_REFUSED 1
#define SPACE_REPORT_FIGURES_AT 2

/* The figures of a party. Its mean wait is the ticks by the waits. */
#define SPACE_FIGURE_LOOK_UPS 0      /* those not refused */
#define SPACE_FIGURE_FOUNDS 1        /* at once and served */
#define SPACE_FIGURE_LONGEST 2       /* wait, in ticks; 0 if none */
#define SPACE_FIGURE_TICKS 3         /* waited in all */
#define SPACE_FIGURE_WAITS 4         /* count of waits */
#define SPACE_FIGURE_WORDS 5

#define SPACE_REPORT_WORDS (SPACE_REPORT_FIGURES_AT + SPACE_FIGURE_WORDS * SPACE_MAX_PARTY)

/* The words of a space, to be read only: the clock, the next numbers, the rows in use of each table, then the tables.
 * A table's rows in use come first; what stands in its other rows means nothing. An end or a deadline is a clock, or
 * SPACE_FOREVER for none. */
#define SPACE_WORD_CLOCK 0
#define SPACE_WORD_NEXT_ENTRY 1
#define SPACE_WORD_NEXT_TRANSACTION 2
#define SPACE_WORD_ENTRY_COUNT 3
#define SPACE_WORD_TRANSACTION_COUNT 4
#define SPACE_WORD_WAITING_COUNT 5
#define SPACE_WORD_NEXT_REGISTRATION 6
#define SPACE_WORD_REGISTRATION_COUNT 7

/* Stored entries, by number. Readers: bit s for a read hold of the transaction in slot s. Blanks: mask bits. Writer:
 * the party that wrote it. */
#define SPACE_ENTRIES_AT 8
#define SPACE_ENTRY_NUMBER 0
#define SPACE_ENTRY_FIELDS 1         /* kind, side, image, place */
#define SPACE_ENTRY_END 5
#define SPACE_ENTRY_PRIVATE_TO 6     /* transaction; 0: committed */
#define SPACE_ENTRY_TAKEN_BY 7       /* transaction with a take hold; 0: none */
#define SPACE_ENTRY_READERS 8        /* readers + SPACE_BLANKS_UNIT * blanks + SPACE_WRITER_UNIT * writer */
#define SPACE_ENTRY_WORDS 9
#define SPACE_BLANKS_UNIT 256
#define SPACE_WRITER_UNIT 65536

/* Live transactions, by number. */
#define SPACE_TRANSACTIONS_AT (SPACE_ENTRIES_AT + SPACE_ENTRY_WORDS * SPACE_MAX_ENTRIES)
#define SPACE_TRANSACTION_NUMBER 0
#define SPACE_TRANSACTION_OWNER 1    /* party */
#define SPACE_TRANSACTION_END 2
#define SPACE_TRANSACTION_SLOT 3     /* 0 to 7 */
#define SPACE_TRANSACTION_WORDS 4

/* Waiting look-ups, by arrival. */
#define SPACE_WAITING_AT (SPACE_TRANSACTIONS_AT + SPACE_TRANSACTION_WORDS * SPACE_MAX_TRANSACTIONS)
#define SPACE_WAITING_PARTY 0
#define SPACE_WAITING_OPERATION 1
#define SPACE_WAITING_MASK 2
#define SPACE_WAITING_FIELDS 3       /* kind, side, image, place or arc */
#define SPACE_WAITING_TRANSACTION 7  /* 0: none */
#define SPACE_WAITING_DEADLINE 8
#define SPACE_WAITING_WORDS 9

/* Live registrations, by number. */
#define SPACE_REGISTRATIONS_AT (SPACE_WAITING_AT + SPACE_WAITING_WORDS * SPACE_MAX_WAITING)
#define SPACE_REGISTRATION_NUMBER 0
#define SPACE_REGISTRATION_PARTY 1
#define SPACE_REGISTRATION_MASK 2
#define SPACE_REGISTRATION_FIELDS 3  /* kind, side, image, place or arc */
#define SPACE_REGISTRATION_END 7
#define SPACE_REGISTRATION_TOTAL 8   /* matching entries made public since */
#define SPACE_REGISTRATION_WORDS 9

#define SPACE_WORDS (SPACE_REGISTRATIONS_AT + SPACE_REGISTRATION_WORDS * SPACE_MAX_REGISTRATIONS)

/* SPACE_VERSION as the archive has it. A host calls it once: if the two differ, header and archive do not belong
 * together. */
uint32_t space_version(void);

/* Makes `space` the empty space: clock 0, nothing stored, live or waiting, 1 as each next number.
 * What the words held before does not matter. Words of 0 are no empty space: their next numbers are 0. */
void space_empty(uint32_t space[SPACE_WORDS]);

/* Carries out one frame on a space that space_empty and space_step alone have written.
 * Returns records + 65536 * number: the records written to `answers`, one behind the other from its beginning, and
 * the refusal's number or 0. A refused frame leaves every word of `space` as it was; it writes one record, or none
 * for number 1 (answers_len under 700). Bytes of `answers` after the last record keep their contents. `frame` is only
 * read.
 * On words made in any other way the call ends and keeps to its buffers, and a refused frame is answered in the same
 * way. The words are read as tables: counts above the limits as the limits, a party, a mask, readers, blanks and a
 * writer modulo 256, a slot modulo 8, a waiting look-up's operation that is not 2 to 5 as 2. A frame that is carried
 * out gives what the rules give for these tables if they are sound, as all are that frames make: entries, transactions
 * and registrations stand by number, below the next numbers; what holds an entry is live; who waits is a party of 1 to
 * 16, once, outside transactions or in a live one of its own; no lease of an entry and no deadline is over; nobody
 * waits who has an available entry, or, of the IfExists kinds, who has no conflicting one; a registration's total, and
 * the private entries with it, are no more than the next entry's number (`Sound`, crates/rules/specs/Sound.antt). */
uint64_t space_step(uint32_t space[SPACE_WORDS], const uint8_t *frame, size_t frame_len,
                    uint8_t *answers, size_t answers_len);

/* Runs a whole tray from an empty space of its own.
 * Returns frames + 65536 * records + 4294967296 * number: frames done (refused ones count), records written to
 * `answers` one behind the other from its beginning, and a number: 0 at the tray's end; 1 if it stopped before a frame
 * for which under 700 bytes were left; 15 or 16 if the tray is refused, and then nothing was done. Bytes of `answers`
 * after the last record keep their contents. `tray` is only read. */
uint64_t space_run_tray(const uint8_t *tray, size_t tray_len, uint8_t *answers, size_t answers_len);

/* How big an area a tray wants: two bounds, from the tray alone, without running it.
 * Returns entries + 65536 * records + 4294967296 * number. Entries stored together at most: the lesser of 64 and the
 * writes. Records written at most: frames + look-ups + creates + for each write or commit the lesser of 8 and the
 * notify frames ahead of it. The number is 15 or 16 if the tray is refused, and then both bounds are 0; else 0. Frames
 * are told apart by byte 0 alone, those too that will be refused; an empty one is a frame, and none of these kinds.
 * space_run_tray keeps within both, whatever the area; with an area of space_bounds_area bytes it does every frame and
 * never stops with 1. `tray` is only read. */
uint64_t space_tray_bounds(const uint8_t *tray, size_t tray_len);

/* Positions on the clock face, as radiologists give them, and places: fields of entries, arcs of templates. Each of the
 * three functions returns 65536 * SPACE_REFUSAL_BAD_PLACE for a number that is out of range. */

/* The place of an hour from 1 to 12 and a minute from 0 to 59: 0 for 12:00, 60 for 1:00, 719 for 11:59. */
uint64_t place_of_time(uint32_t hour, uint32_t minute);

/* Hour and minute of a place from 0 to 719, as 256 * hour + minute: place_of_time the other way round. */
uint64_t time_of_place(uint32_t place);

/* The mirror of a place from 0 to 719, (720 - place) modulo 720, for the other breast. Mirroring twice gives the place.
 * The mirror of an arc has the same length and starts at the mirror of its end. */
uint64_t mirrored_place(uint32_t place);

/* An order that accounts for the transactions of an export: one in which their actions, carried out one transaction
 * after the other on a set of entry numbers that is empty at first, all find what they found. A write adds its number,
 * a read needs it, a take needs and removes it; the actions of a transaction see what its own earlier ones did. Leases
 * and fields are not considered.
 * Returns 1, and the positions of the transactions in front of `order`, a byte each, counted from 0. Of several such
 * orders it is the first, when they are compared place by place as lists of positions. Returns 0 exactly if there is
 * none; an entry that nobody writes is no mistake of the export, but no order finds it. Returns
 * 65536 * SPACE_REFUSAL_BAD_EXPORT for more than 6 transactions, more than 8 actions in one, a number that is written
 * twice, in one transaction or in two, words that are no such list (too few, left over, another kind), and for
 * order_len below the number of transactions. With 0 or a refusal `order` keeps its contents; so do its bytes behind
 * the positions. `actions` is only read. */
uint64_t space_find_order(const uint32_t *actions, size_t actions_len, uint8_t *order, size_t order_len);

/* The number of the refusal, or 0, in what space_find_order returns. */
static inline uint32_t space_order_number(uint64_t returned) { return (uint32_t)(returned / 65536u); }

/* Tries leases before they are fixed for good: up to 4 panes, parties 1 to 4, go round on an empty space of their own.
 * Each creates a transaction, takes an entry of its kind in it (mask 1), holds it for some ticks, writes an entry of
 * its other kind in it (other fields 0), commits, and starts over. The starting entries are written first, by party 16,
 * at clock 0. Each round every pane that is not waiting or holding sends one frame, by number; then a tick follows. A
 * pane that is served in the middle of a round sends nothing more in that round. After nothing, or a refused frame in
 * its transaction, it aborts next; after an exception, a refused create, an abort or a commit it starts over; of two
 * answers in a round the later decides. A hold counts whole ticks, without the tick that itself served the found. So,
 * found by a frame in round r: holds 0 and 1 write in round r + 1, hold h in r + h; found by the tick of round r: in
 * r + 1 + h.
 * Returns 0, and in front of `counts` the commits, exceptions and nothings of each pane: every record of kind 6, 8 or 3
 * to it, in whatever step, as space_step gives them for the same frames. Returns 65536 * SPACE_REFUSAL_BAD_SETUP unless
 * there are 1 to 4 panes, 8 starting entries at most, just as many words as these have, and counts_len for three words
 * of each pane; or else 65536 * SPACE_REFUSAL_TOO_MANY_ROUNDS for more than 1,000 rounds. With a refusal `counts` keeps
 * its contents; so do its words behind those of the panes. `setup` is only read. */
uint64_t space_trial(const uint32_t *setup, size_t setup_len, uint32_t *counts, size_t counts_len);

/* The number of the refusal, or 0, in what space_trial returns. */
static inline uint32_t space_trial_number(uint64_t returned) { return (uint32_t)(returned / 65536u); }

/* Makes `report` the report of no tray: every word is 0. What the words held before does not matter. */
void sittings_empty(uint32_t report[SPACE_REPORT_WORDS]);

/* Hands in a tray to a report that sittings_empty and sittings_add alone have written: how long each party waits, over
 * up to 64 trays. The tray is run from an empty space of its own to its last frame, and what its frames and answers
 * tell is added to the figures of each party: look-ups not refused; founds, at once and served; the longest wait; the
 * ticks waited in all, and the count of waits. Only a look-up answered waiting has a wait. It runs from the look-up to
 * its closing answer (found, nothing, the exception of its transaction, or the abort that withdraws it), or to the end
 * of the tray, and is the difference of the clocks after those two frames: the tick that closes it counts, and a wait
 * may be of 0 ticks. Each figure is the sum over the trays; the longest wait is the maximum.
 * Returns 0; or 65536 * SPACE_REFUSAL_TOO_MANY_TRAYS where 64 trays were handed in already, whatever the next one is,
 * and then no word of `report` changes; or 65536 * SPACE_REFUSAL_BAD_TRAY or SPACE_REFUSAL_BAD_PAIR for a refused tray,
 * which counts in the first two words and changes no other. `tray` is only read.
 * On words made in any other way the call ends, keeps to its buffers, and returns the same; with 25 no word changes,
 * with 15 or 16 none behind the first two. */
uint64_t sittings_add(uint32_t report[SPACE_REPORT_WORDS], const uint8_t *tray, size_t tray_len);

/* The number of the refusal, or 0, in what sittings_add returns. */
static inline uint32_t space_sittings_number(uint64_t returned) { return (uint32_t)(returned / 65536u); }

/* The figures of a party from 1 to 16 in a report. */
static inline const uint32_t *space_report_figures(const uint32_t *report, uint8_t party)
{
    return report + SPACE_REPORT_FIGURES_AT + SPACE_FIGURE_WORDS * (party - 1);
}

/* The parts of what space_step and space_run_tray return. */
static inline uint32_t space_step_records(uint64_t returned) { return (uint32_t)(returned % 65536u); }
static inline uint32_t space_step_number(uint64_t returned) { return (uint32_t)(returned / 65536u); }
static inline uint32_t space_run_frames(uint64_t returned) { return (uint32_t)(returned % 65536u); }
static inline uint32_t space_run_records(uint64_t returned) { return (uint32_t)(returned / 65536u % 65536u); }
static inline uint32_t space_run_number(uint64_t returned) { return (uint32_t)(returned / 4294967296u); }

/* The parts of what space_tray_bounds returns, and the area for space_run_tray: before the last frame one record at
 * least is still to come, and 700 bytes are to be left. */
static inline uint32_t space_bounds_entries(uint64_t bounds) { return (uint32_t)(bounds % 65536u); }
static inline uint32_t space_bounds_records(uint64_t bounds) { return (uint32_t)(bounds / 65536u % 65536u); }
static inline uint32_t space_bounds_number(uint64_t bounds) { return (uint32_t)(bounds / 4294967296u); }
static inline size_t space_bounds_area(uint64_t bounds)
{
    return SPACE_RECORD_BYTES * (size_t)space_bounds_records(bounds) + SPACE_STEP_BYTES - SPACE_RECORD_BYTES;
}

/* The number of the refusal, or 0, in what the functions of the clock face return; hour and minute of time_of_place. */
static inline uint32_t space_place_number(uint64_t returned) { return (uint32_t)(returned / 65536u); }
static inline uint32_t space_time_hour(uint64_t returned) { return (uint32_t)(returned / 256u % 256u); }
static inline uint32_t space_time_minute(uint64_t returned) { return (uint32_t)(returned % 256u); }

/* An arc, for the place of a template, and its parts. What does not fit 16 bits becomes 65535, which 21 refuses too. */
static inline uint32_t space_arc(uint32_t start, uint32_t length)
{
    return (start < 65535u ? start : 65535u) | (length < 65535u ? length : 65535u) << 16;
}

static inline uint32_t space_arc_start(uint32_t arc) { return arc % 65536u; }
static inline uint32_t space_arc_length(uint32_t arc) { return arc / 65536u; }

/* The parts of the word at SPACE_ENTRY_READERS in the row of an entry. */
static inline uint8_t space_entry_readers(const uint32_t *row)
{
    return (uint8_t)(row[SPACE_ENTRY_READERS] % SPACE_BLANKS_UNIT);
}

static inline uint8_t space_entry_blanks(const uint32_t *row)
{
    return (uint8_t)(row[SPACE_ENTRY_READERS] / SPACE_BLANKS_UNIT);
}

static inline uint8_t space_entry_writer(const uint32_t *row)
{
    return (uint8_t)(row[SPACE_ENTRY_READERS] / SPACE_WRITER_UNIT);
}

/* The word that begins at `at`, and the writing of one. */
static inline uint32_t space_get_word(const uint8_t *at)
{
    return at[0] | (uint32_t)at[1] << 8 | (uint32_t)at[2] << 16 | (uint32_t)at[3] << 24;
}

static inline void space_put_word(uint8_t *at, uint32_t word)
{
    for (int i = 0; i < 4; i++)
        at[i] = (uint8_t)(word >> 8 * i);
}

#ifdef __cplusplus
}
#endif

#endif
