/* Document 01's sample tray through the C boundary, byte by byte, and its printed lines to standard output; null
 * pointers; what each function leaves in its buffers; the headers' builders, names and layout of the words; the lengths
 * of frames; the oldest entry first; blanks; renewals; registrations and their bells; the clock face; how big an area a
 * tray wants; orders; trial panes; waiting times. */
#include <stdlib.h>
#include "lines.h"
#include "space_frames.h"

static const uint8_t sample[] = {
    3, 0, 0, 0, 28, 0, 0, 0, 28, 0, 0, 0, 56, 0, 0, 0, 28, 0, 0, 0, 84, 0, 0, 0, 4, 0, 0, 0,
    /* party 1 writes 7 1 40 9, lease 5 */
    1, 1, 0, 0, 0, 0, 0, 0, 5, 0, 0, 0, 7, 0, 0, 0, 1, 0, 0, 0, 40, 0, 0, 0, 9, 0, 0, 0,
    /* party 2 takes mask 1, kind 7, timeout 0 */
    3, 2, 1, 0, 0, 0, 0, 0, 0, 0, 0, 0, 7, 0, 0, 0, 0, 0, 0, 0, 0, 0, 0, 0, 0, 0, 0, 0,
    /* tick */
    9, 0, 0, 0};

static const uint8_t wanted[] = {
    1, 1, 0, 0, 0, 0, 0, 0, 1, 0, 0, 0, 0, 0, 0, 0, 0, 0, 0, 0, 0,  0, 0, 0, 0, 0, 0, 0,
    2, 2, 0, 0, 0, 0, 0, 0, 1, 0, 0, 0, 7, 0, 0, 0, 1, 0, 0, 0, 40, 0, 0, 0, 9, 0, 0, 0,
    9, 0, 0, 0, 0, 0, 0, 0, 0, 0, 0, 0, 0, 0, 0, 0, 0, 0, 0, 0, 0,  0, 0, 0, 0, 0, 0, 0};

static const uint32_t mark[4] = {7, 1, 40, 9};
static uint32_t space[SPACE_WORDS];
static uint8_t answers[65536], frame[SPACE_MAX_FRAME_BYTES];

static void check(int holds, const char *what)
{
    if (!holds) {
        fprintf(stderr, "boundary_test: %s\n", what);
        exit(1);
    }
}

static int all(const uint8_t *bytes, size_t count, uint8_t value)
{
    for (size_t i = 0; i < count; i++)
        if (bytes[i] != value)
            return 0;
    return 1;
}

static void run_sample(void)
{
    memset(answers, 0xa5, sizeof answers);
    uint64_t returned = space_run_tray(sample, sizeof sample, answers, sizeof answers);
    check(returned == 3 + 65536 * 3, "the sample tray's returned number");
    check(memcmp(answers, wanted, sizeof wanted) == 0, "the sample tray's records");
    check(all(answers + sizeof wanted, sizeof answers - sizeof wanted, 0xa5), "bytes after the last record");
    print_lines(answers, returned);
}

/* The same frames, one at a time, on a space of the host's own. */
static void step_sample(void)
{
    memset(space, 0xff, sizeof space);
    space_empty(space);
    for (int i = 0; i < 3; i++) {
        const uint8_t *pair = sample + SPACE_TRAY_COUNT_BYTES + SPACE_TRAY_PAIR_BYTES * i;
        memset(answers, 0xa5, SPACE_STEP_BYTES);
        uint64_t returned = space_step(space, sample + space_get_word(pair), space_get_word(pair + 4), answers,
                                       SPACE_STEP_BYTES);
        check(space_step_records(returned) == 1 && space_step_number(returned) == 0, "a step's returned number");
        check(memcmp(answers, wanted + SPACE_RECORD_BYTES * i, SPACE_RECORD_BYTES) == 0, "a step's record");
        check(all(answers + SPACE_RECORD_BYTES, SPACE_STEP_BYTES - SPACE_RECORD_BYTES, 0xa5), "bytes after it");
    }
}

/* Nulls of length 0, and refused frames. */
static void pass_nulls(void)
{
    static uint32_t before[SPACE_WORDS];
    check(space_run_tray(NULL, 0, NULL, 0) == 15 * UINT64_C(4294967296), "no tray");
    check(space_run_tray(sample, sizeof sample, NULL, 0) == 1 * UINT64_C(4294967296), "no area");
    memcpy(before, space, sizeof space);
    check(space_step(space, NULL, 0, NULL, 0) == 65536 * 1, "a step without an area");
    check(space_step(space, NULL, 0, answers, SPACE_STEP_BYTES) == 1 + 65536 * 2, "an empty frame");
    check(answers[0] == SPACE_RECORD_REFUSED, "an empty frame's record");
    check(answers[1] == 0 && answers[2] == SPACE_REFUSAL_BAD_OPERATION, "an empty frame's party and number");
    check(memcmp(before, space, sizeof space) == 0, "refused frames leave the space as it was");
}

static int is_operation(unsigned operation)
{
    return operation >= 1 && operation <= 11;
}

static void build_frames(void)
{
    check(space_frame_write(frame, 1, mark, 5, 0) == 28 && memcmp(frame, sample + 28, 28) == 0, "a write's frame");
    check(space_frame_look_up(frame, SPACE_OP_TAKE, 2, SPACE_MASK_KIND, mark, 0, 0) == 28 &&
          memcmp(frame, sample + 56, 28) == 0, "a take's frame, with fields that are not asked for");
    check(space_frame_write_blanks(frame, 1, SPACE_MASK_PLACE, mark, 5, 0) == 28 && frame[2] == 8 &&
          memcmp(frame + 3, sample + 31, 21) == 0 && all(frame + 24, 4, 0), "a write's frame, its place blank");
    check(space_frame_tick(frame) == 4 && memcmp(frame, sample + 84, 4) == 0, "a tick's frame");
    check(space_frame_create(frame, 3, 258) == 12 &&
          memcmp(frame, (uint8_t[]){6, 3, 0, 0, 0, 0, 0, 0, 2, 1, 0, 0}, 12) == 0, "a create's frame");
    check(space_frame_commit(frame, 3, 258) == 8 &&
          memcmp(frame, (uint8_t[]){7, 3, 0, 0, 2, 1, 0, 0}, 8) == 0, "a commit's frame");
    check(space_frame_abort(frame, 3, 258) == 8 &&
          memcmp(frame, (uint8_t[]){8, 3, 0, 0, 2, 1, 0, 0}, 8) == 0, "an abort's frame");
    check(space_frame_notify(frame, 3, SPACE_MASK_SIDE, mark, 258) == 28 &&
          memcmp(frame, (uint8_t[28]){10, 3, 2, 0, 0, 0, 0, 0, 2, 1, 0, 0, 0, 0, 0, 0, 1}, 28) == 0,
          "a notify's frame, with fields that are not asked for");
    check(space_frame_renew(frame, 3, 258, 772) == 12 &&
          memcmp(frame, (uint8_t[]){11, 3, 0, 0, 2, 1, 0, 0, 4, 3, 0, 0}, 12) == 0, "a renew's frame");
    const uint32_t arc[4] = {7, 1, 40, space_arc(258, 515)};
    check(space_frame_look_up(frame, SPACE_OP_READ, 3, SPACE_MASK_SIDE | SPACE_MASK_ARC, arc, 0, 0) == 28 &&
          memcmp(frame + 12, (uint8_t[16]){[4] = 1, [12] = 2, 1, 3, 2}, 16) == 0 && frame[2] == 18,
          "a read's frame, with an arc");
    space_empty(space);
    for (int operation = 0; operation < 256; operation++) { /* a length that the space does not refuse with 2 or 3 */
        size_t length = space_frame(frame, (uint8_t)operation, operation == SPACE_OP_TICK ? 0 : 1);
        uint64_t returned = space_step(space, frame, length, answers, SPACE_STEP_BYTES);
        int there_is = is_operation((unsigned)operation);
        check(there_is ? length > 0 && space_step_number(returned) != 2 && space_step_number(returned) != 3
                       : length == 0, "the lengths");
        check((strcmp(space_operation_name((uint8_t)operation), "?") != 0) == there_is, "the operations' names");
        int is_kind = (operation >= 1 && operation <= 12) || operation == 15;
        check((strcmp(space_record_name((uint8_t)operation), "?") != 0) == is_kind, "the kinds'");
        int given = operation >= 1 && operation <= 25 && operation != 14;
        check((strcmp(space_refusal_meaning((uint32_t)operation), "?") != 0) == given, "the refusals' meanings");
    }
}

/* The lengths of documents 01 and 02, for every operation byte and every length up to 64. */
static void judge_lengths(void)
{
    static const size_t lengths[] = {0, 28, 28, 28, 28, 28, 12, 8, 8, 4, 28, 12};
    uint8_t any[64] = {0};
    for (unsigned operation = 0; operation < 256; operation++)
        for (size_t length = 1; length <= sizeof any; length++) {
            int there_is = is_operation(operation);
            any[0] = (uint8_t)operation;
            any[1] = operation == SPACE_OP_TICK ? 0 : 1;
            space_empty(space);
            uint32_t number = space_step_number(space_step(space, any, length, answers, SPACE_STEP_BYTES));
            check((number == SPACE_REFUSAL_BAD_OPERATION) == !there_is, "2, by the operation byte");
            check((number == SPACE_REFUSAL_BAD_LENGTH) == (there_is && length != lengths[operation]),
                "3, by the table");
        }
}

static struct space_record step(size_t length)
{
    space_step(space, frame, length, answers, SPACE_STEP_BYTES);
    return space_record_at(answers, 0);
}

static int row_is(uint32_t begin, uint32_t words, uint32_t row, const uint32_t *expected)
{
    return memcmp(space + begin + words * row, expected, words * sizeof space[0]) == 0;
}

/* The words, read by the header's layout after frames that leave a mark in each column. */
static void read_words(void)
{
    space_empty(space);
    step(space_frame_tick(frame));
    step(space_frame_notify(frame, 6, SPACE_MASK_SIDE | SPACE_MASK_IMAGE, mark, 11));       /* 1, ends at 12 */
    step(space_frame_notify(frame, 7, 0, mark, SPACE_FOREVER));                             /* 2 */
    step(space_frame_write(frame, 1, mark, 5, 0));                          /* entry 1, ends at 6 */
    step(space_frame_write_blanks(frame, 1, SPACE_MASK_KIND | SPACE_MASK_IMAGE, mark, 6, 0)); /* entry 2, ends at 7 */
    step(space_frame_write(frame, 1, mark, 7, 0));                          /* entry 3, ends at 8 */
    step(space_frame_create(frame, 2, 9));                                  /* transaction 1, ends at 10 */
    step(space_frame_create(frame, 3, SPACE_FOREVER));                      /* transaction 2 */
    step(space_frame_write_blanks(frame, 3, SPACE_MASK_IMAGE, mark, SPACE_FOREVER, 2)); /* entry 4, private to 2 */
    step(space_frame_look_up(frame, SPACE_OP_TAKE, 2, 0, mark, 0, 1));      /* entry 1 */
    step(space_frame_look_up(frame, SPACE_OP_READ, 3, 0, mark, 0, 2));      /* entry 2 */
    step(space_frame_look_up(frame, SPACE_OP_TAKE_IF_EXISTS, 4, SPACE_MASK_SIDE | SPACE_MASK_PLACE, mark, 3, 0));
    check(space_record_at(answers, 0).entry == 3, "the one that is neither taken nor read nor private");
    step(space_frame_look_up(frame, SPACE_OP_TAKE, 5, SPACE_MASK_SIDE | SPACE_MASK_ARC,
                             (uint32_t[4]){0, 2, 0, space_arc(660, 120)}, 3, 0));

    check(space[SPACE_WORD_CLOCK] == 1 && space[SPACE_WORD_NEXT_ENTRY] == 5 &&
          space[SPACE_WORD_NEXT_TRANSACTION] == 3 && space[SPACE_WORD_NEXT_REGISTRATION] == 3,
          "the clock and the next numbers");
    check(space[SPACE_WORD_ENTRY_COUNT] == 3 && space[SPACE_WORD_TRANSACTION_COUNT] == 2 &&
          space[SPACE_WORD_WAITING_COUNT] == 1 && space[SPACE_WORD_REGISTRATION_COUNT] == 2, "the counts of rows");
    check(row_is(SPACE_TRANSACTIONS_AT, SPACE_TRANSACTION_WORDS, 0, (uint32_t[]){1, 2, 10, 0}) &&
          row_is(SPACE_TRANSACTIONS_AT, SPACE_TRANSACTION_WORDS, 1, (uint32_t[]){2, 3, SPACE_FOREVER, 1}),
          "the transactions' rows");
    check(row_is(SPACE_WAITING_AT, SPACE_WAITING_WORDS, 0,
                 (uint32_t[]){5, SPACE_OP_TAKE, 18, 0, 2, 0, 660 + 65536 * 120, 0, 4}), "the waiting look-up's row");
    uint32_t arc = space[SPACE_WAITING_AT + SPACE_WAITING_FIELDS + 3];
    check(space_arc_start(arc) == 660 && space_arc_length(arc) == 120, "an arc's parts by name");
    check(row_is(SPACE_ENTRIES_AT, SPACE_ENTRY_WORDS, 0, (uint32_t[]){1, 7, 1, 40, 9, 6, 0, 1, 65536}) &&
          row_is(SPACE_ENTRIES_AT, SPACE_ENTRY_WORDS, 1, (uint32_t[]){2, 0, 1, 0, 9, 7, 0, 0, 2 + 256 * 5 + 65536}) &&
          row_is(SPACE_ENTRIES_AT, SPACE_ENTRY_WORDS, 2,
                 (uint32_t[]){4, 7, 1, 0, 9, SPACE_FOREVER, 2, 0, 256 * 4 + 65536 * 3}),
          "the entries' rows");
    check(row_is(SPACE_REGISTRATIONS_AT, SPACE_REGISTRATION_WORDS, 0, (uint32_t[]){1, 6, 6, 0, 1, 40, 0, 12, 2}) &&
          row_is(SPACE_REGISTRATIONS_AT, SPACE_REGISTRATION_WORDS, 1,
                 (uint32_t[]){2, 7, 0, 0, 0, 0, 0, SPACE_FOREVER, 3}), "the registrations' rows");
    const uint32_t *second = space + SPACE_ENTRIES_AT + SPACE_ENTRY_WORDS;
    check(space_entry_readers(second) == 2 && space_entry_blanks(second) == (SPACE_MASK_KIND | SPACE_MASK_IMAGE) &&
          space_entry_writer(second) == 1 && space_entry_writer(second + SPACE_ENTRY_WORDS) == 3,
          "readers, blanks and writer by name");
    check(SPACE_WORDS == 832, "the words of a space");
}

static uint32_t found(uint8_t operation, uint8_t party, uint32_t transaction)
{
    size_t length = space_frame_look_up(frame, operation, party, SPACE_MASK_KIND, mark, 0, transaction);
    struct space_record record = step(length);
    return record.kind == SPACE_RECORD_FOUND ? record.entry : 0;
}

/* Of several available entries the one with the lowest number is found. */
static void find_oldest(void)
{
    space_empty(space);
    for (int i = 0; i < 4; i++)
        step(space_frame_write(frame, 1, mark, SPACE_FOREVER, 0));          /* entries 1 to 4 */
    check(found(SPACE_OP_READ, 2, 0) == 1 && found(SPACE_OP_TAKE, 2, 0) == 1 &&
          found(SPACE_OP_READ_IF_EXISTS, 2, 0) == 2 && found(SPACE_OP_TAKE_IF_EXISTS, 2, 0) == 2, "the oldest first");
    step(space_frame_create(frame, 2, SPACE_FOREVER));                      /* transaction 1 */
    step(space_frame_write(frame, 2, mark, SPACE_FOREVER, 1));              /* entry 5, private */
    check(found(SPACE_OP_TAKE, 2, 1) == 3 && found(SPACE_OP_READ, 3, 0) == 4, "a held one is passed over");
    check(found(SPACE_OP_READ, 2, 1) == 4, "a committed one before the own private one, which is newer");
    step(space_frame_abort(frame, 2, 1));
    check(found(SPACE_OP_READ, 3, 0) == 3, "one that was put back is the oldest again");
}

/* The same in service: the look-ups in order of arrival, each the lowest number at its turn. */
static void serve_oldest(void)
{
    space_empty(space);
    step(space_frame_create(frame, 1, SPACE_FOREVER));                      /* transaction 1 */
    for (int i = 0; i < 3; i++)
        step(space_frame_write(frame, 1, mark, SPACE_FOREVER, 1));          /* entries 1 to 3, private */
    for (uint8_t party = 4; party >= 2; party--)                            /* parties 4, 3, 2: take, read, take */
        step(space_frame_look_up(frame, party == 3 ? SPACE_OP_READ : SPACE_OP_TAKE, party, 0, mark, 9, 0));
    uint64_t returned = space_step(space, frame, space_frame_commit(frame, 1, 1), answers, SPACE_STEP_BYTES);
    check(returned == 4, "committed and three founds");
    for (uint32_t i = 1; i <= 3; i++) {
        struct space_record record = space_record_at(answers, i);
        check(record.kind == SPACE_RECORD_FOUND && record.party == 5 - i, "served in order of arrival");
        check(record.entry == (i == 1 ? 1 : 2), "the oldest at each turn");
    }
}

/* A write's frame with this mask; one field is 1, or none if there is no such, and the others 0. */
static size_t put_write(uint8_t mask, int field, uint32_t lease)
{
    size_t length = space_frame_write(frame, 1, (uint32_t[4]){0}, lease, 0);
    frame[2] = mask;
    if (field < 4)
        frame[SPACE_FRAME_AT_FIELDS + 4 * field] = 1;
    return length;
}

/* Every mask of a write, with every field filled in turn and with none, stored or not; and of the frames that have
 * neither blanks nor a template. */
static void judge_masks(void)
{
    for (unsigned mask = 0; mask < 256; mask++) {
        for (int field = 0; field <= 4; field++)
            for (uint32_t lease = 0; lease < 2; lease++) {
                space_empty(space);
                uint32_t wanted_number = mask > 15 || mask >> field & 1 ? SPACE_REFUSAL_BAD_FORM : 0;
                struct space_record record = step(put_write((uint8_t)mask, field, lease));
                check(record.refusal == wanted_number, "4, by a write's mask");
                check(record.blanks == 0, "no blanks in a written or a refused");
                uint32_t stored = wanted_number ? 0 : lease;
                check(space[SPACE_WORD_ENTRY_COUNT] == stored, "stored, if it has a lease");
                check(!stored || space_entry_blanks(space + SPACE_ENTRIES_AT) == mask, "the mask is the blanks");
            }
        for (uint8_t operation = SPACE_OP_CREATE; operation <= SPACE_OP_RENEW; operation++) {
            if (operation == SPACE_OP_NOTIFY)
                continue;
            size_t length = space_frame(frame, operation, operation == SPACE_OP_TICK ? 0 : 1);
            frame[2] = (uint8_t)mask;
            check((step(length).refusal == SPACE_REFUSAL_BAD_FORM) == (mask != 0), "4, by another frame's mask");
        }
    }
}

/* All blanks against all templates that ask 0: found exactly if no blank is asked for, with the blanks in byte 3. */
static void find_blanks(void)
{
    static const uint32_t zeros[4];
    for (uint8_t blanks = 0; blanks < 16; blanks++)
        for (uint8_t mask = 0; mask < 16; mask++)
            for (uint8_t operation = SPACE_OP_READ; operation <= SPACE_OP_TAKE_IF_EXISTS; operation++) {
                space_empty(space);
                step(space_frame_write_blanks(frame, 1, blanks, zeros, 1, 0));
                struct space_record record = step(space_frame_look_up(frame, operation, 2, mask, zeros, 0, 0));
                int matches = (blanks & mask) == 0;
                check(record.kind == (matches ? SPACE_RECORD_FOUND : SPACE_RECORD_NOTHING), "a blank never matches 0");
                check(record.blanks == (matches ? blanks : 0), "a found's blanks");
            }
}

/* Blanks through a take that is put back and a commit, to look-ups that wait: one asks 0 of the blank and waits on. */
static void serve_blanks(void)
{
    const uint32_t asked[4] = {7, 0, 0, 0};
    space_empty(space);
    step(space_frame_create(frame, 1, SPACE_FOREVER));                      /* transaction 1 */
    step(space_frame_write_blanks(frame, 1, SPACE_MASK_PLACE, mark, SPACE_FOREVER, 1));
    step(space_frame_look_up(frame, SPACE_OP_TAKE, 2, SPACE_MASK_KIND | SPACE_MASK_PLACE, asked, SPACE_FOREVER, 0));
    step(space_frame_look_up(frame, SPACE_OP_READ, 3, SPACE_MASK_KIND, asked, SPACE_FOREVER, 0));
    uint64_t returned = space_step(space, frame, space_frame_commit(frame, 1, 1), answers, SPACE_STEP_BYTES);
    struct space_record record = space_record_at(answers, 1);
    check(returned == 2 && record.party == 3, "committed; who asks 0 of the blank waits on");
    check(record.blanks == SPACE_MASK_PLACE && record.fields[3] == 0, "the blanks after a commit");
    step(space_frame_create(frame, 1, SPACE_FOREVER));                      /* transaction 2 */
    check(found(SPACE_OP_TAKE, 1, 2) == 1, "taken inside a transaction");
    returned = space_step(space, frame, space_frame_abort(frame, 1, 2), answers, SPACE_STEP_BYTES);
    check(returned == 1 && found(SPACE_OP_READ, 3, 0) == 1, "put back, for who does not ask");
    check(space_record_at(answers, 0).blanks == SPACE_MASK_PLACE, "the blanks after an abort");
}

static uint32_t count_entries(void)
{
    return space[SPACE_WORD_ENTRY_COUNT];
}

/* Every lease about the ends of its range, from a clock that is not 0: the record to the last byte, and the end. */
static void renew_entries(void)
{
    static const uint32_t leases[] = {1, 2, 300, SPACE_FOREVER - 3, SPACE_FOREVER};
    static const uint8_t renewed[SPACE_RECORD_BYTES] = {12, 3, 0, 0, 0, 0, 0, 0, 2};
    space_empty(space);
    step(space_frame_write(frame, 1, mark, SPACE_FOREVER, 0));              /* entry 1 */
    step(space_frame_write_blanks(frame, 3, SPACE_MASK_PLACE, mark, 7, 0)); /* entry 2 */
    step(space_frame_tick(frame));
    step(space_frame_tick(frame));
    const uint32_t *row = space + SPACE_ENTRIES_AT + SPACE_ENTRY_WORDS;
    for (size_t i = 0; i < sizeof leases / sizeof leases[0]; i++) {
        memset(answers, 0xa5, SPACE_STEP_BYTES);
        size_t length = space_frame_renew(frame, 3, 2, leases[i]);
        check(space_step(space, frame, length, answers, SPACE_STEP_BYTES) == 1, "a renewal's returned number");
        check(memcmp(answers, renewed, sizeof renewed) == 0, "a renewal's record");
        check(all(answers + sizeof renewed, SPACE_STEP_BYTES - sizeof renewed, 0xa5), "bytes after it");
        check(row[SPACE_ENTRY_END] == (leases[i] == SPACE_FOREVER ? SPACE_FOREVER : 2 + leases[i]), "clock + lease");
        check(space_entry_writer(row) == 3 && space_entry_blanks(row) == SPACE_MASK_PLACE, "the rest of its row");
    }
    step(space_frame_renew(frame, 3, 2, 0));
    check(memcmp(answers, renewed, sizeof renewed) == 0 && count_entries() == 1, "lease 0 removes it in this step");
    check(step(space_frame_renew(frame, 3, 2, 1)).refusal == SPACE_REFUSAL_NO_ENTRY, "it is there no more");
    check(space[SPACE_ENTRIES_AT] == 1 && found(SPACE_OP_READ, 2, 0) == 1, "the other is left");
}

/* An entry outlives the end that it had, and ends at its new one; so does one whose end is put forward. */
static void outlive_leases(void)
{
    space_empty(space);
    step(space_frame_write(frame, 1, mark, 2, 0));                          /* entry 1, ends at 2 */
    step(space_frame_write(frame, 1, mark, 9, 0));                          /* entry 2, ends at 9 */
    step(space_frame_tick(frame));
    step(space_frame_renew(frame, 1, 1, 3));                                /* ends at 4 */
    step(space_frame_renew(frame, 1, 2, 2));                                /* ends at 3 */
    for (uint32_t clock = 2; clock <= 4; clock++) {
        step(space_frame_tick(frame));
        check(count_entries() == 4 - clock, "each ends at its new end");
    }
}

/* 6, 18, 19, 20 and 10, in this order; 7 and 8 pass a renewal by. The lease is too late in each case, so that 10 would
 * apply as well. */
static void judge_renewals(void)
{
    static const struct { uint8_t party; uint32_t entry; uint32_t number; } cases[] = {
        {3, 1, SPACE_REFUSAL_PARTY_WAITS}, {3, 9, SPACE_REFUSAL_PARTY_WAITS},
        {1, 0, SPACE_REFUSAL_NO_ENTRY}, {1, 5, SPACE_REFUSAL_NO_ENTRY}, {2, SPACE_FOREVER, SPACE_REFUSAL_NO_ENTRY},
        {2, 1, SPACE_REFUSAL_NOT_WRITER}, {16, 2, SPACE_REFUSAL_NOT_WRITER}, {2, 3, SPACE_REFUSAL_NOT_WRITER},
        {1, 1, SPACE_REFUSAL_ENTRY_HELD}, {1, 2, SPACE_REFUSAL_ENTRY_HELD}, {1, 3, SPACE_REFUSAL_ENTRY_HELD},
        {1, 4, SPACE_REFUSAL_TOO_LATE}};
    static uint32_t before[SPACE_WORDS];
    space_empty(space);
    step(space_frame_tick(frame));
    step(space_frame_write(frame, 1, mark, SPACE_FOREVER, 0));              /* entry 1 */
    step(space_frame_write(frame, 1, mark, SPACE_FOREVER, 0));              /* entry 2 */
    step(space_frame_create(frame, 1, SPACE_FOREVER));                      /* transaction 1 */
    step(space_frame_write(frame, 1, mark, SPACE_FOREVER, 1));              /* entry 3, private */
    check(found(SPACE_OP_TAKE, 1, 1) == 1 && found(SPACE_OP_READ, 1, 1) == 2, "its own holds");
    step(space_frame_write(frame, 1, mark, SPACE_FOREVER, 0));              /* entry 4 */
    step(space_frame_look_up(frame, SPACE_OP_TAKE, 3, SPACE_MASK_SIDE, (uint32_t[4]){0, 2, 0, 0}, SPACE_FOREVER, 0));
    memcpy(before, space, sizeof space);
    for (size_t i = 0; i < sizeof cases / sizeof cases[0]; i++) {
        size_t length = space_frame_renew(frame, cases[i].party, cases[i].entry, SPACE_FOREVER - 1);
        check(step(length).refusal == cases[i].number, "the order of a renewal's refusals");
        check(memcmp(before, space, sizeof space) == 0, "a refused renewal leaves the space as it was");
    }
    check(step(space_frame_renew(frame, 1, 4, SPACE_FOREVER - 2)).kind == SPACE_RECORD_RENEWED, "the longest lease");
    step(space_frame_commit(frame, 1, 1));
    check(step(space_frame_renew(frame, 1, 3, 1)).kind == SPACE_RECORD_RENEWED, "private no more");
    check(step(space_frame_renew(frame, 1, 2, 1)).kind == SPACE_RECORD_RENEWED, "held no more");
    check(step(space_frame_renew(frame, 1, 1, 1)).refusal == SPACE_REFUSAL_NO_ENTRY, "taken");
}

/* Every template of a notify, with every field filled in turn and with none, is judged as a read's. A mask above 23 has
 * bits 3 and 4, or a bit that no mask has. */
static void judge_templates(void)
{
    for (unsigned mask = 0; mask < 256; mask++)
        for (int field = 0; field <= 4; field++) {
            uint32_t numbers[2];
            for (int i = 0; i < 2; i++) {
                space_empty(space);
                size_t length = space_frame_notify(frame, 1, 0, mark, 1);
                frame[0] = i ? SPACE_OP_READ : SPACE_OP_NOTIFY;
                frame[2] = (uint8_t)mask;
                if (field < 4)
                    frame[SPACE_FRAME_AT_FIELDS + 4 * field] = 1;
                numbers[i] = step(length).refusal;
            }
            int asked = field == 4 || mask >> field & 1 || (field == 3 && mask & SPACE_MASK_ARC);
            check(numbers[0] == (mask > 23 || !asked ? SPACE_REFUSAL_BAD_FORM : 0), "4, by a notify's template");
            check(numbers[0] == numbers[1], "as a read's");
        }
}

/* Carries out a frame that is not refused. The bytes behind its records are as they were; gives how many these are. */
static uint32_t count_records(size_t length)
{
    memset(answers, 0xa5, SPACE_STEP_BYTES);
    uint64_t returned = space_step(space, frame, length, answers, SPACE_STEP_BYTES);
    size_t end = SPACE_RECORD_BYTES * (size_t)space_step_records(returned);
    check(space_step_number(returned) == 0, "it is carried out");
    check(all(answers + end, SPACE_STEP_BYTES - end, 0xa5), "bytes after the last record");
    return space_step_records(returned);
}

/* Whether the record with this place is such a bell, to the last byte. */
static int is_bell(uint32_t place, uint8_t party, uint32_t registration, uint32_t count, uint32_t total)
{
    uint8_t bell[SPACE_RECORD_BYTES] = {SPACE_RECORD_RUNG, party};
    space_put_word(bell + SPACE_RECORD_AT_REGISTRATION, registration);
    space_put_word(bell + SPACE_RECORD_AT_COUNT, count);
    space_put_word(bell + SPACE_RECORD_AT_TOTAL, total);
    return memcmp(answers + SPACE_RECORD_BYTES * place, bell, sizeof bell) == 0;
}

/* Bells stand behind all other records, by number. An entry that service hands out in the step counts; one that the
 * transaction has taken again does not. */
static void ring_bells(void)
{
    static const uint8_t notified[SPACE_RECORD_BYTES] = {10, 3, 0, 0, 0, 0, 0, 0, 1};
    space_empty(space);
    check(count_records(space_frame_notify(frame, 3, SPACE_MASK_KIND, mark, SPACE_FOREVER)) == 1, "one record");
    check(memcmp(answers, notified, sizeof notified) == 0, "a notify's record");
    step(space_frame_notify(frame, 4, 0, mark, 1));                         /* registration 2 */
    step(space_frame_notify(frame, 3, SPACE_MASK_KIND, (uint32_t[4]){8}, SPACE_FOREVER)); /* 3, which matches none */
    step(space_frame_create(frame, 1, SPACE_FOREVER));                      /* transaction 1 */
    for (int i = 0; i < 2; i++)
        check(count_records(space_frame_write(frame, 1, mark, 9, 1)) == 1, "no bell for a private entry");
    check(found(SPACE_OP_TAKE, 1, 1) == 1, "it takes one again");
    for (uint8_t party = 5; party <= 6; party++)
        step(space_frame_look_up(frame, SPACE_OP_TAKE_IF_EXISTS, party, SPACE_MASK_KIND, mark, SPACE_FOREVER, 0));
    check(count_records(space_frame_commit(frame, 1, 1)) == 5, "committed, a found, a nothing, two bells");
    check(space_record_at(answers, 1).kind == SPACE_RECORD_FOUND &&
          space_record_at(answers, 2).kind == SPACE_RECORD_NOTHING, "founds and nothings first");
    check(is_bell(3, 3, 1, 1, 1) && is_bell(4, 4, 2, 1, 1), "the bells of a commit");
    step(space_frame_create(frame, 1, SPACE_FOREVER));                      /* transaction 2 */
    for (int i = 0; i < 3; i++)
        step(space_frame_write_blanks(frame, 1, i == 1 ? SPACE_MASK_KIND : 0, mark, 9, 2));
    check(count_records(space_frame_commit(frame, 1, 2)) == 3, "committed, two bells");
    check(is_bell(1, 3, 1, 2, 3) && is_bell(2, 4, 2, 3, 4), "counts and totals; a blank is not matched");
    check(count_records(space_frame_write(frame, 3, mark, 9, 0)) == 3, "written, two bells");
    check(is_bell(1, 3, 1, 1, 4) && is_bell(2, 4, 2, 1, 5), "the bells of a write, to its own party too");
}

/* All blanks against all templates that ask 0: a bell exactly if no blank is asked for. */
static void ring_for_blanks(void)
{
    static const uint32_t zeros[4];
    for (uint8_t blanks = 0; blanks < 16; blanks++)
        for (uint8_t mask = 0; mask < 16; mask++) {
            space_empty(space);
            step(space_frame_notify(frame, 2, mask, zeros, 1));
            uint32_t records = count_records(space_frame_write_blanks(frame, 1, blanks, zeros, 1, 0));
            check(records == ((blanks & mask) == 0 ? 2 : 1), "a bell, unless 0 is asked of a blank");
        }
}

/* No bell for what a step does not make public, nor once the registration has ended. */
static void stay_silent(void)
{
    space_empty(space);
    step(space_frame_notify(frame, 3, 0, mark, 2));                         /* registration 1, ends at 2 */
    step(space_frame_notify(frame, 4, 0, mark, SPACE_FOREVER));             /* registration 2 */
    check(count_records(space_frame_write(frame, 1, mark, 0, 0)) == 1, "lease 0");
    check(count_records(space_frame_write(frame, 1, mark, SPACE_FOREVER, 0)) == 3, "both ring");
    step(space_frame_create(frame, 1, SPACE_FOREVER));                      /* transaction 1 */
    check(found(SPACE_OP_TAKE, 1, 1) == 2 && count_records(space_frame_abort(frame, 1, 1)) == 1, "an abort puts back");
    step(space_frame_create(frame, 1, 1));                                  /* transaction 2, ends at 1 */
    check(found(SPACE_OP_TAKE, 1, 2) == 2 && count_records(space_frame_tick(frame)) == 2, "so does an exception");
    check(count_records(space_frame_renew(frame, 1, 2, 9)) == 1, "a renewal");
    check(count_records(space_frame_tick(frame)) == 1 && space[SPACE_WORD_REGISTRATION_COUNT] == 1 &&
          space[SPACE_REGISTRATIONS_AT + SPACE_REGISTRATION_NUMBER] == 2, "the first ends without a record");
    check(count_records(space_frame_write(frame, 1, mark, SPACE_FOREVER, 0)) == 2, "one rings");
    check(is_bell(1, 4, 2, 1, 2), "the other, which is left");
    check(step(space_frame_notify(frame, 3, 0, mark, 1)).entry == 3, "a number is never used again");
}

/* 4, 5, 21, 6, 9, 10 and 17, in this order: in each case all later ones would apply as well, 13 too. Then 13. */
static void judge_notifies(void)
{
    static const struct { uint8_t party; uint32_t start, transaction, lease, number; } cases[] = {
        {17, 720, 1, 0, SPACE_REFUSAL_BAD_FORM}, {17, 720, 0, 0, SPACE_REFUSAL_BAD_PARTY},
        {3, 720, 0, 0, SPACE_REFUSAL_BAD_PLACE}, {3, 719, 0, 0, SPACE_REFUSAL_PARTY_WAITS},
        {1, 0, 0, 0, SPACE_REFUSAL_WITHOUT_LEASE}, {1, 0, 0, SPACE_FOREVER - 1, SPACE_REFUSAL_TOO_LATE},
        {1, 0, 0, SPACE_FOREVER - 2, SPACE_REFUSAL_REGISTRATIONS_FULL},
        {1, 0, 0, SPACE_FOREVER, SPACE_REFUSAL_REGISTRATIONS_FULL}};
    static uint32_t before[SPACE_WORDS];
    space_empty(space);
    step(space_frame_tick(frame));
    for (uint32_t i = 1; i <= SPACE_MAX_REGISTRATIONS; i++)
        check(step(space_frame_notify(frame, 1, 0, mark, i == 5 ? 1 : SPACE_FOREVER - 2)).entry == i, "by number");
    step(space_frame_look_up(frame, SPACE_OP_TAKE, 3, 0, mark, SPACE_FOREVER, 0));
    space[SPACE_WORD_NEXT_REGISTRATION] = SPACE_FOREVER;
    memcpy(before, space, sizeof space);
    for (size_t i = 0; i < sizeof cases / sizeof cases[0]; i++) {
        const uint32_t fields[4] = {0, 0, 0, space_arc(cases[i].start, 719)};
        size_t length = space_frame_notify(frame, cases[i].party, SPACE_MASK_ARC, fields, cases[i].lease);
        space_put_word(frame + SPACE_FRAME_AT_TRANSACTION, cases[i].transaction);
        check(step(length).refusal == cases[i].number, "the order of a notify's refusals");
        check(memcmp(before, space, sizeof space) == 0, "a refused notify leaves the space as it was");
    }
    step(space_frame_tick(frame));                                          /* registration 5 ends */
    size_t length = space_frame_notify(frame, 1, 0, mark, 1);
    check(step(length).refusal == SPACE_REFUSAL_NUMBERS_USED_UP, "13, with seven live");
    space[SPACE_WORD_NEXT_REGISTRATION] = SPACE_FOREVER - 1;
    check(step(length).entry == SPACE_FOREVER - 1, "the last number");
    check(step(length).refusal == SPACE_REFUSAL_REGISTRATIONS_FULL, "17 before 13");
}

/* What the functions of the clock face give for a number out of range. */
static const uint64_t off_the_face = 65536 * SPACE_REFUSAL_BAD_PLACE;

/* Every hour from 0 to 13 with every minute from 0 to 61, and the largest numbers. */
static void convert_times(void)
{
    for (uint32_t hour = 0; hour <= 13; hour++)
        for (uint32_t minute = 0; minute <= 61; minute++) {
            int is_time = hour >= 1 && hour <= 12 && minute <= 59;
            uint64_t place = place_of_time(hour, minute);
            check(place == (!is_time ? off_the_face : hour == 12 ? minute : 60 * hour + minute), "a time's place");
            check(!is_time || time_of_place((uint32_t)place) == 256 * hour + minute, "and back");
        }
    check(place_of_time(UINT32_MAX, 0) == off_the_face && place_of_time(1, UINT32_MAX) == off_the_face &&
          place_of_time(UINT32_MAX, UINT32_MAX) == off_the_face && place_of_time(256 + 1, 0) == off_the_face,
          "times far out of range");
    check(space_place_number(off_the_face) == 21 && space_place_number(place_of_time(11, 59)) == 0, "the number");
}

static void convert_places(void)
{
    for (uint32_t place = 0; place < SPACE_PLACES; place++) {
        uint64_t time = time_of_place(place), mirror = mirrored_place(place);
        check(place_of_time(space_time_hour(time), space_time_minute(time)) == place, "a place's time, and back");
        check(mirror == (place ? SPACE_PLACES - place : 0), "a place's mirror");
        check(mirrored_place((uint32_t)mirror) == place, "mirroring twice");
    }
    for (uint32_t place = SPACE_PLACES; place < 3 * 65536; place++)
        check(time_of_place(place) == off_the_face && mirrored_place(place) == off_the_face, "larger places");
    check(time_of_place(UINT32_MAX) == off_the_face && mirrored_place(UINT32_MAX) == off_the_face, "the largest");
}

/* Whether an entry with this place, or with a blank in its place, is found by the arc. */
static int lies_in(uint32_t arc, uint8_t blanks, uint32_t place)
{
    space_empty(space);
    step(space_frame_write_blanks(frame, 1, blanks, (uint32_t[4]){7, 1, 40, place}, 1, 0));
    const uint32_t fields[4] = {0, 0, 0, arc};
    return step(space_frame_look_up(frame, SPACE_OP_READ, 2, SPACE_MASK_ARC, fields, 0, 0)).kind == SPACE_RECORD_FOUND;
}

/* Some arcs, with every place of the face, larger ones and a blank: an arc has the places that are met on the way from
 * its start, so many on. */
static void find_arcs(void)
{
    static const uint32_t starts[] = {0, 1, 359, 660, 719}, lengths[] = {0, 1, 60, 718, 719};
    static const uint32_t larger[] = {65536, 65536 + 660, UINT32_MAX - 719, UINT32_MAX};
    for (int i = 0; i < 25; i++) {
        uint32_t start = starts[i / 5], length = lengths[i % 5], arc = space_arc(start, length);
        uint8_t met[2 * SPACE_PLACES] = {0};
        for (uint32_t on = 0; on <= length; on++)
            met[(start + on) % SPACE_PLACES] = 1;
        for (uint32_t place = 0; place < 2 * SPACE_PLACES; place++)
            check(lies_in(arc, 0, place) == met[place], "found on the way");
        for (int j = 0; j < 4; j++)
            check(!lies_in(arc, 0, larger[j]), "larger places never match");
        check(!lies_in(arc, SPACE_MASK_PLACE, 0), "a blank never matches");
    }
}

/* An arc from 11:00 to 1:00, for which a look-up waits and a registration listens: what lies beside it, is larger or
 * blank serves nobody, rings no bell and is no conflict. */
static void serve_arcs(void)
{
    static const uint32_t outside[] = {659, 61, 720, 65536 + 660};
    const uint32_t asked[4] = {0, 0, 0, space_arc(660, 120)};
    space_empty(space);
    step(space_frame_notify(frame, 3, SPACE_MASK_ARC, asked, SPACE_FOREVER));
    step(space_frame_look_up(frame, SPACE_OP_READ, 2, SPACE_MASK_ARC, asked, SPACE_FOREVER, 0));
    for (int i = 0; i < 4; i++)
        check(count_records(space_frame_write(frame, 1, (uint32_t[4]){7, 1, 40, outside[i]}, 9, 0)) == 1, "outside");
    check(count_records(space_frame_write_blanks(frame, 1, SPACE_MASK_PLACE, mark, 9, 0)) == 1, "blank");
    check(count_records(space_frame_write(frame, 1, (uint32_t[4]){7, 1, 40, 60}, 9, 0)) == 3, "at its end");
    check(space_record_at(answers, 1).party == 2 && space_record_at(answers, 1).entry == 6 && is_bell(2, 3, 1, 1, 1),
          "found in service, and a bell");
    step(space_frame_look_up(frame, SPACE_OP_TAKE, 2, SPACE_MASK_ARC, asked, 0, 0));
    step(space_frame_create(frame, 1, SPACE_FOREVER));                      /* transaction 1 */
    for (uint32_t place = 659; place <= 660; place++) {
        step(space_frame_write(frame, 1, (uint32_t[4]){7, 1, 40, place}, 9, 1));
        size_t length = space_frame_look_up(frame, SPACE_OP_READ_IF_EXISTS, 2, SPACE_MASK_ARC, asked, 9, 0);
        check(step(length).kind == (place == 659 ? SPACE_RECORD_NOTHING : SPACE_RECORD_WAITING), "a conflict inside");
    }
    check(count_records(space_frame_commit(frame, 1, 1)) == 3, "committed, found, a bell");
    check(space_record_at(answers, 1).fields[3] == 660 && is_bell(2, 3, 1, 1, 2), "at its start");
}

/* 4, 5, 21, 6, 7, 8 and 10, in this order: in each case all later ones would apply as well, but for 7 or 8. */
static void judge_arcs(void)
{
    static const struct { uint8_t mask, party; uint32_t start, length, transaction, number; } cases[] = {
        {24, 17, 720, 720, 9, SPACE_REFUSAL_BAD_FORM}, {48, 3, 720, 0, 9, SPACE_REFUSAL_BAD_FORM},
        {16, 17, 720, 0, 9, SPACE_REFUSAL_BAD_PARTY}, {16, 0, 0, 720, 9, SPACE_REFUSAL_BAD_PARTY},
        {16, 3, 720, 0, 9, SPACE_REFUSAL_BAD_PLACE}, {16, 3, 0, 720, 9, SPACE_REFUSAL_BAD_PLACE},
        {23, 2, 65535, 719, 1, SPACE_REFUSAL_BAD_PLACE}, {16, 1, 65536, 65536, 1, SPACE_REFUSAL_BAD_PLACE},
        {16, 3, 719, 719, 9, SPACE_REFUSAL_PARTY_WAITS}, {16, 2, 719, 719, 9, SPACE_REFUSAL_NOT_LIVE},
        {16, 2, 719, 719, 1, SPACE_REFUSAL_NOT_OWNER}, {16, 1, 719, 719, 1, SPACE_REFUSAL_TOO_LATE},
        {8, 1, 720, 720, 1, SPACE_REFUSAL_TOO_LATE}};
    static uint32_t before[SPACE_WORDS];
    space_empty(space);
    step(space_frame_tick(frame));
    step(space_frame_create(frame, 1, SPACE_FOREVER));                      /* transaction 1 */
    step(space_frame_look_up(frame, SPACE_OP_TAKE, 3, SPACE_MASK_ARC, (uint32_t[4]){0}, SPACE_FOREVER, 0));
    memcpy(before, space, sizeof space);
    for (size_t i = 0; i < sizeof cases / sizeof cases[0]; i++)
        for (uint8_t operation = SPACE_OP_READ; operation <= SPACE_OP_TAKE_IF_EXISTS; operation++) {
            const uint32_t fields[4] = {7, 1, 40, space_arc(cases[i].start, cases[i].length)};
            size_t length = space_frame_look_up(frame, operation, cases[i].party, cases[i].mask, fields,
                                                SPACE_FOREVER - 1, cases[i].transaction);
            check(step(length).refusal == cases[i].number, "the order of a look-up's refusals");
            check(memcmp(before, space, sizeof space) == 0, "a refused look-up leaves the space as it was");
        }
}

/* A tray that is put together frame by frame: it has room for all pairs, and gaps are ignored. */
enum { FRAMES_AT = SPACE_TRAY_COUNT_BYTES + SPACE_TRAY_PAIR_BYTES * SPACE_MAX_TRAY_FRAMES };
static uint8_t tray[SPACE_MAX_TRAY_BYTES + 1];
static size_t tray_len;

static void clear_tray(void)
{
    space_put_word(tray, 0);
    tray_len = FRAMES_AT;
}

static void add_frame(size_t length)
{
    uint32_t count = space_get_word(tray);
    uint8_t *pair = tray + SPACE_TRAY_COUNT_BYTES + SPACE_TRAY_PAIR_BYTES * count;
    space_put_word(pair, (uint32_t)tray_len);
    space_put_word(pair + 4, (uint32_t)length);
    memcpy(tray + tray_len, frame, length);
    tray_len += length;
    space_put_word(tray, count + 1);
}

/* Frames that have their first byte alone, and so are refused. */
static void add_bytes(uint8_t operation, int frames)
{
    frame[0] = operation;
    for (int i = 0; i < frames; i++)
        add_frame(1);
}

static int refuses(uint32_t number, size_t length)
{
    uint64_t bounds = space_tray_bounds(tray, length);
    return bounds == number * UINT64_C(4294967296) && space_bounds_number(bounds) == number &&
           space_run_number(space_run_tray(tray, length, answers, sizeof answers)) == number;
}

/* The sample tray, the empty one, and trays that are refused: these have no bounds. */
static void bound_trays(void)
{
    uint64_t bounds = space_tray_bounds(sample, sizeof sample);
    check(bounds == 1 + 65536 * (3 + 1), "the sample tray's bounds");
    check(space_bounds_entries(bounds) == 1 && space_bounds_records(bounds) == 4 && space_bounds_number(bounds) == 0 &&
          space_bounds_area(bounds) == 28 * 4 + 672, "bounds by name");
    check(space_tray_bounds((const uint8_t[4]){0}, 4) == 0 && space_bounds_area(0) == 672, "the empty tray's bounds");
    check(space_tray_bounds(NULL, 0) == 15 * UINT64_C(4294967296), "the bounds of no tray");
    memcpy(tray, sample, sizeof sample);
    check(refuses(15, 3) && refuses(15, 27) && refuses(16, sizeof sample - 1), "a short tray");
    check(refuses(15, SPACE_MAX_TRAY_BYTES + 1) && !refuses(15, SPACE_MAX_TRAY_BYTES), "a long one");
    for (uint32_t i = 0; i < 3; i++) {
        space_put_word(tray + SPACE_TRAY_COUNT_BYTES + SPACE_TRAY_PAIR_BYTES * i, 27);
        check(refuses(16, sizeof sample), "a pair that begins before the pairs' end");
        memcpy(tray, sample, sizeof sample);
    }
    clear_tray();
    add_bytes(SPACE_OP_WRITE, SPACE_MAX_TRAY_FRAMES);
    check(space_tray_bounds(tray, tray_len) == 64 + UINT64_C(65536) * 2000, "2,000 frames");
    space_put_word(tray, 2001);
    check(refuses(15, SPACE_MAX_TRAY_BYTES), "2,001 frames");
}

/* Every first byte, with no notify frame ahead of it, with 3 and with 9; an empty frame, which is of no kind. */
static void bound_kinds(void)
{
    for (unsigned operation = 0; operation < 256; operation++) {
        uint64_t is_write = operation == SPACE_OP_WRITE, rings = is_write || operation == SPACE_OP_COMMIT;
        uint64_t twice = (operation >= SPACE_OP_READ && operation <= SPACE_OP_TAKE_IF_EXISTS) ||
                         operation == SPACE_OP_CREATE;
        clear_tray();
        add_bytes((uint8_t)operation, 1);
        add_frame(0);
        add_bytes(SPACE_OP_NOTIFY, 3);
        add_bytes((uint8_t)operation, 1);
        add_bytes(SPACE_OP_NOTIFY, 6);
        add_bytes((uint8_t)operation, 1);
        uint64_t records = 13 + 3 * twice + rings * (0 + 3 + 8);
        check(space_tray_bounds(tray, tray_len) == 3 * is_write + 65536 * records, "bounds by the first byte");
    }
}

/* The tray's run in an area of just the size that its bounds give, which it keeps to, and in one of a byte less. */
static void run_in_its_area(uint64_t bounds, uint64_t returned, uint64_t with_less)
{
    size_t length = space_bounds_area(space_tray_bounds(tray, tray_len));
    size_t written = SPACE_RECORD_BYTES * (size_t)space_run_records(returned);
    uint8_t *area = answers + 64;
    check(space_tray_bounds(tray, tray_len) == bounds, "the tray's bounds");
    memset(answers, 0xa5, sizeof answers);
    check(space_run_tray(tray, tray_len, area, length) == returned, "a run in its area");
    check(all(answers, 64, 0xa5) && all(area + written, sizeof answers - 64 - written, 0xa5), "it keeps to that");
    check(space_run_tray(tray, tray_len, area, length - 1) == with_less, "a run in a byte less");
}

/* Both bounds are reached: each frame gives all the records that it may. Of two ticks the second stops if a byte is
 * missing. The tray that wants most has eight notifies, and then writes alone. */
static void run_in_bounds(void)
{
    clear_tray();
    for (uint8_t party = 2; party <= 3; party++)
        add_frame(space_frame_notify(frame, party, 0, mark, SPACE_FOREVER));
    add_frame(space_frame_create(frame, 4, 1));
    for (uint8_t party = 5; party <= 6; party++)
        add_frame(space_frame_look_up(frame, SPACE_OP_READ, party, 0, mark, SPACE_FOREVER, 0));
    add_frame(space_frame_write(frame, 1, mark, SPACE_FOREVER, 0));         /* two founds, two bells */
    add_frame(space_frame_tick(frame));                                     /* an exception */
    run_in_its_area(1 + 65536 * 12, 7 + 65536 * 12, 7 + 65536 * 12);

    clear_tray();
    add_frame(space_frame_tick(frame));
    add_frame(space_frame_tick(frame));
    run_in_its_area(65536 * 2, 2 + 65536 * 2, 1 + 65536 * 1 + UINT64_C(4294967296));

    clear_tray();
    add_bytes(SPACE_OP_NOTIFY, 8);
    add_bytes(SPACE_OP_WRITE, SPACE_MAX_TRAY_FRAMES - 8);
    check(space_tray_bounds(tray, tray_len) == 64 + UINT64_C(65536) * 17936, "the largest bounds");
    check(space_bounds_area(space_tray_bounds(tray, tray_len)) == 502880, "and their area");
}

/* A space with each kind of row, and the same words as no frames make them: host/space.h tells how they are read. */
static void make_odd(uint32_t odd[SPACE_WORDS])
{
    space_empty(space);
    for (uint8_t party = 1; party <= SPACE_MAX_REGISTRATIONS; party++)
        step(space_frame_notify(frame, party, SPACE_MASK_SIDE, (uint32_t[4]){0, 2, 0, 0}, SPACE_FOREVER));
    for (int i = 0; i < SPACE_MAX_ENTRIES; i++)
        step(space_frame_write_blanks(frame, 1, SPACE_MASK_IMAGE, mark, SPACE_FOREVER, 0));
    step(space_frame_create(frame, 2, SPACE_FOREVER));
    step(space_frame_look_up(frame, SPACE_OP_READ, 2, 0, mark, 0, 1));
    for (uint8_t party = 4; party >= 3; party--) /* parties 4, 3: read, take */
        step(space_frame_look_up(frame, party == 4 ? SPACE_OP_READ : SPACE_OP_TAKE, party, SPACE_MASK_SIDE,
                                 (uint32_t[4]){0, 2, 0, 0}, SPACE_FOREVER, 0));
    memcpy(odd, space, sizeof space);
    odd[SPACE_WORD_ENTRY_COUNT] += 1000;
    odd[SPACE_WORD_REGISTRATION_COUNT] += 1000;
    odd[SPACE_TRANSACTIONS_AT + SPACE_TRANSACTION_OWNER] += 256;
    odd[SPACE_TRANSACTIONS_AT + SPACE_TRANSACTION_SLOT] += 8;
    odd[SPACE_WAITING_AT + SPACE_WAITING_OPERATION] += 256;
    for (uint32_t row = 0; row < 2; row++) {
        odd[SPACE_WAITING_AT + SPACE_WAITING_WORDS * row + SPACE_WAITING_PARTY] += 256;
        odd[SPACE_WAITING_AT + SPACE_WAITING_WORDS * row + SPACE_WAITING_MASK] += 256;
    }
    for (uint32_t row = 0; row < SPACE_MAX_ENTRIES; row++)
        odd[SPACE_ENTRIES_AT + SPACE_ENTRY_WORDS * row + SPACE_ENTRY_READERS] += 16777216; /* writer modulo 256 */
    for (uint32_t row = 0; row < SPACE_MAX_REGISTRATIONS; row++) {
        odd[SPACE_REGISTRATIONS_AT + SPACE_REGISTRATION_WORDS * row + SPACE_REGISTRATION_PARTY] += 256;
        odd[SPACE_REGISTRATIONS_AT + SPACE_REGISTRATION_WORDS * row + SPACE_REGISTRATION_MASK] += 256;
    }
}

/* The frames that are carried out on both; behind each, its number. */
static size_t put_next(int place)
{
    switch (place) {
    case 0: return space_frame_write(frame, 1, mark, 1, 0);                 /* 11 */
    case 1: return space_frame_write(frame, 3, mark, 1, 0);                 /* 6 */
    case 2: return space_frame_commit(frame, 1, 1);                         /* 8 */
    case 3: return space_frame_renew(frame, 2, 64, 1);                      /* 19 */
    case 4: return space_frame_renew(frame, 1, 1, 1);                       /* 20 */
    case 5: return space_frame_notify(frame, 1, 0, mark, 1);                /* 17 */
    case 6: return space_frame_renew(frame, 1, 64, 1);
    case 7: return space_frame_look_up(frame, SPACE_OP_TAKE, 2, 0, mark, 0, 1);
    case 8: return space_frame_commit(frame, 2, 1);
    default: return space_frame_write(frame, 1, (uint32_t[4]){7, 2, 0, 0}, 1, 0); /* serves both; eight bells */
    }
}

static void step_on_odd_words(void)
{
    static uint32_t odd[SPACE_WORDS];
    static uint8_t odd_answers[SPACE_STEP_BYTES];
    static const uint32_t numbers[] = {11, 6, 8, 19, 20, 17, 0, 0, 0, 0};
    make_odd(odd);
    for (int i = 0; i < 10; i++) {
        size_t length = put_next(i);
        memset(answers, 0xa5, SPACE_STEP_BYTES);
        memset(odd_answers, 0xa5, SPACE_STEP_BYTES);
        uint64_t returned = space_step(space, frame, length, answers, SPACE_STEP_BYTES);
        check(space_step(odd, frame, length, odd_answers, SPACE_STEP_BYTES) == returned, "odd words: returned");
        check(memcmp(answers, odd_answers, sizeof odd_answers) == 0, "odd words: the answers");
        check(space_step_number(returned) == numbers[i] && space_step_records(returned) == (i == 9 ? 11 : 1),
              "odd words: what each frame gives");
    }
}

enum { W = SPACE_ORDER_WRITE, R = SPACE_ORDER_READ, T = SPACE_ORDER_TAKE, GUARD = 0xa5 };

/* What space_find_order gives for these words, with so many bytes for the order. It leaves the words as they were, and
 * every byte of the order's surroundings, behind the positions too; `order` has these then. */
static uint64_t find_order(const uint32_t *words, size_t words_len, uint8_t order[16], size_t order_len)
{
    uint32_t before[128];
    memset(order, GUARD, 16);
    memcpy(before, words, 4 * words_len);
    uint64_t returned = space_find_order(words, words_len, order + 4, order_len);
    size_t written = returned == 1 ? words[0] : 0;
    check(memcmp(before, words, 4 * words_len) == 0, "an export is only read");
    check(all(order, 4, GUARD) && all(order + 4 + written, 12 - written, GUARD), "the bytes around an order");
    memmove(order, order + 4, 12);
    return returned;
}

#define FIND(order, room, ...) \
    find_order((const uint32_t[]){__VA_ARGS__}, sizeof(uint32_t[]){__VA_ARGS__} / 4, order, room)

/* The first of several orders, the only one, none; own earlier actions; numbers of every size. */
static void find_orders(void)
{
    uint8_t order[16];
    check(FIND(order, 3, 3, 1, T, 7, 1, R, 7, 1, W, 7) == 1, "write, read, take");
    check(memcmp(order, (uint8_t[]){2, 1, 0}, 3) == 0, "write, read, take: the order");
    check(FIND(order, 5, 5, 2, T, 7, W, 9, 1, R, 9, 1, W, 7, 1, R, 7, 1, W, 11) == 1, "the program's export");
    check(memcmp(order, (uint8_t[]){2, 3, 0, 1, 4}, 5) == 0, "the program's export: the order");
    check(FIND(order, 8, 3, 1, W, 0, 0, 1, W, 4294967295u) == 1 && memcmp(order, (uint8_t[]){0, 1, 2}, 3) == 0,
          "of several orders the first");
    check(FIND(order, 1, 1, 3, W, 5, R, 5, T, 5) == 1 && order[0] == 0, "a transaction sees what it wrote");
    check(FIND(order, 2, 2, 1, R, 5, 2, W, 5, T, 5) == 0, "and took: nobody else finds it");
    check(FIND(order, 2, 2, 2, T, 5, R, 5, 1, W, 5) == 0, "nor itself, again");
    check(FIND(order, 2, 2, 2, W, 1, R, 2, 2, W, 2, R, 1) == 0, "each before the other");
    check(FIND(order, 3, 3, 1, W, 1, 1, T, 1, 1, T, 1) == 0, "two takes");
    check(FIND(order, 1, 1, 1, R, 8) == 0, "a number that nobody writes");
    check(FIND(order, 0, 0) == 1 && space_find_order((const uint32_t[]){0}, 1, NULL, 0) == 1, "no transactions");
    check(FIND(order, 6, 6, 0, 0, 0, 0, 0, 0) == 1 && memcmp(order, (uint8_t[]){0, 1, 2, 3, 4, 5}, 6) == 0,
          "transactions without actions");
}

/* Each of the limits, from both sides, and words that are no export: 22. */
static void judge_exports(void)
{
    const uint64_t refused = UINT64_C(65536) * SPACE_REFUSAL_BAD_EXPORT;
    uint8_t order[16];
    check(space_order_number(refused) == 22 && space_order_number(1) == 0 && space_order_number(0) == 0, "its number");
    check(FIND(order, 12, 7, 0, 0, 0, 0, 0, 0, 0) == refused, "7 transactions");
    check(FIND(order, 1, 1, 8, W, 1, W, 2, W, 3, W, 4, W, 5, W, 6, W, 7, W, 8) == 1, "8 actions");
    check(FIND(order, 1, 1, 9, W, 1, W, 2, W, 3, W, 4, W, 5, W, 6, W, 7, W, 8, R, 1) == refused, "9 actions");
    check(FIND(order, 1, 1, 3, W, 5, T, 5, W, 5) == refused, "written twice in one");
    check(FIND(order, 2, 2, 1, W, 5, 2, T, 5, W, 5) == refused, "written twice in two");
    check(FIND(order, 2, 2, 1, W, 5, 1, R, 5) == 1 && FIND(order, 1, 2, 1, W, 5, 1, R, 5) == refused, "a short order");
    check(FIND(order, 0, 1, 0) == refused && space_find_order((const uint32_t[]){1, 0}, 2, NULL, 0) == refused,
          "no order to write to");
    check(space_find_order(NULL, 0, order, sizeof order) == refused, "no words");
    check(FIND(order, 2, 2, 1, W, 5) == refused && FIND(order, 2, 2, 1, W, 5, 1, R) == refused, "words too few");
    check(FIND(order, 1, 1, 1, W, 5, 0) == refused && FIND(order, 1, 0, 0) == refused, "words left over");
    check(FIND(order, 1, 1, 1, 0, 5) == refused && FIND(order, 1, 1, 1, T + 1, 5) == refused, "another kind");
    check(FIND(order, 1, 1, 1, 256 + W, 5) == refused, "a kind beyond a byte");
    check(FIND(order, 12, 4294967295u, 0) == refused && FIND(order, 1, 1, 4294967295u) == refused, "huge counts");
    check(FIND(order, 1, 1, 2147483648u) == refused, "a count that is 0 if doubled in 32 bits");
    check(FIND(order, 1, 1, 2147483649u, W, 5) == refused, "and one that is 2");
}

enum { KEPT = SPACE_TRIAL_MAX_COUNTS + 4 };

/* What space_trial gives for this setup, with so many words for the counts. It leaves the setup as it was, and every
 * word of the counts' surroundings, behind those of the panes too; `counts` has these then. */
static uint64_t try_panes(const uint32_t *setup, size_t setup_len, uint32_t counts[KEPT], size_t counts_len)
{
    uint32_t before[SPACE_TRIAL_MAX_WORDS + 16], words[4 + KEPT];
    memset(words, GUARD, sizeof words);
    memcpy(before, setup, 4 * setup_len);
    uint64_t returned = space_trial(setup, setup_len, words + 4, counts_len);
    size_t written = returned == 0 ? SPACE_COUNT_WORDS * setup[SPACE_TRIAL_PANE_COUNT] : 0;
    check(memcmp(before, setup, 4 * setup_len) == 0, "a setup is only read");
    check(all((const uint8_t *)words, 16, GUARD), "the words before counts");
    check(all((const uint8_t *)(words + 4 + written), 4 * (KEPT - written), GUARD), "the words behind counts");
    memcpy(counts, words + 4, 4 * KEPT);
    return returned;
}

#define TRY(counts, room, ...) \
    try_panes((const uint32_t[]){__VA_ARGS__}, sizeof(uint32_t[]){__VA_ARGS__} / 4, counts, room)

/* These are a pane's counts. */
static int counted(const uint32_t counts[KEPT], int pane, uint32_t commits, uint32_t exceptions, uint32_t nothings)
{
    const uint32_t *of_pane = counts + SPACE_COUNT_WORDS * (pane - 1);
    return of_pane[SPACE_COUNT_COMMITS] == commits && of_pane[SPACE_COUNT_EXCEPTIONS] == exceptions &&
           of_pane[SPACE_COUNT_NOTHINGS] == nothings;
}

#define EVER SPACE_FOREVER
#define MARK(kind) kind, 1, 40, 9, EVER /* a starting entry */

/* A pane by itself; its words are: lease, timeout, takes, lease of what it writes, writes, hold. */
static void try_one_pane(void)
{
    uint32_t counts[KEPT];
    /* Rounds 1 to 4: create, take (found), write, commit. 5 to 7: create, take (nothing), abort. 8 and 9: create, take
     * (nothing). A lease of 4 ends with the tick of round 4, behind the commit. */
    check(TRY(counts, 3, 9, 1, 1, 4, 0, 7, EVER, 8, 0, MARK(7)) == 0 && counted(counts, 1, 1, 0, 2), "a commit");
    /* A lease of 3 ends with the tick of round 3, behind the write: an exception every three rounds. */
    check(TRY(counts, 3, 9, 1, 1, 3, 0, 7, EVER, 8, 0, MARK(7)) == 0 && counted(counts, 1, 0, 3, 0), "exceptions");
    /* Hold 2: found in round 2, written in 4, committed in 5, before the lease ends with the tick of 5. Hold 3: not
     * yet committed then. Hold 1 is as hold 0: committed in 4. */
    check(TRY(counts, 3, 5, 1, 1, 5, 0, 7, EVER, 8, 2, MARK(7)) == 0 && counted(counts, 1, 1, 0, 0), "hold 2");
    check(TRY(counts, 3, 5, 1, 1, 5, 0, 7, EVER, 8, 3, MARK(7)) == 0 && counted(counts, 1, 0, 1, 0), "hold 3");
    check(TRY(counts, 3, 4, 1, 1, 5, 0, 7, EVER, 8, 1, MARK(7)) == 0 && counted(counts, 1, 1, 0, 0), "hold 1");
    check(TRY(counts, 3, 1000, 1, 1, EVER, 0, 7, 1, 8, EVER, MARK(7)) == 0 && counted(counts, 1, 0, 0, 0), "hold on");
    /* It takes what it wrote itself: a commit every four rounds. */
    check(TRY(counts, 3, 1000, 1, 1, EVER, 0, 7, EVER, 7, 0, MARK(7)) == 0 && counted(counts, 1, 250, 0, 0), "again");
    /* Nothing to take: nothing in round 2 and, with the tick of it, an exception; both count. The wait of timeout 1
     * would end with that tick too: the exception closes it. */
    check(TRY(counts, 3, 4, 1, 0, 2, 0, 7, EVER, 8, 0) == 0 && counted(counts, 1, 0, 2, 2), "nothing, exception");
    check(TRY(counts, 3, 4, 1, 0, 2, 1, 7, EVER, 8, 0) == 0 && counted(counts, 1, 0, 2, 0), "exception in a wait");
    /* It waits from round 2 to the tick of round 3, aborts in 4; and over again. */
    check(TRY(counts, 3, 8, 1, 0, EVER, 2, 7, EVER, 8, 0) == 0 && counted(counts, 1, 0, 0, 2), "nothing after waits");
    check(TRY(counts, 3, 6, 1, 1, 0, 0, 7, EVER, 8, 0, MARK(7)) == 0 && counted(counts, 1, 0, 0, 0), "creates refused");
    check(TRY(counts, 3, 6, 1, 1, 1, 0, 7, EVER, 8, 0, MARK(7)) == 0 && counted(counts, 1, 0, 6, 0), "a lease of 1");
    /* Lease 4294967293 is too late at clock 2: the write is refused, and an abort follows, round after round. */
    check(TRY(counts, 3, 8, 1, 1, 9, 0, 7, EVER - 2, 8, 0, MARK(7)) == 0 && counted(counts, 1, 0, 0, 0), "too late");
    check(TRY(counts, 3, 0, 1, 0, 9, 0, 7, EVER, 8, 0) == 0 && counted(counts, 1, 0, 0, 0), "no round");
}

/* Two panes, of which one waits for what the other has or writes. */
static void try_two_panes(void)
{
    uint32_t counts[KEPT];
    for (uint32_t rounds = 5; rounds <= 6; rounds++) {
        /* The commit of pane 1, in round 4, serves pane 2, which sends nothing more in that round, writes in 5 and
         * commits in 6. Pane 1 creates in 5, and its take finds nothing in 6. */
        check(TRY(counts, 6, rounds, 2, 1, EVER, 0, 7, EVER, 8, 0, EVER, EVER, 8, EVER, 9, 0, MARK(7)) == 0 &&
              counted(counts, 1, 1, 0, rounds - 5) && counted(counts, 2, rounds - 5, 0, 0), "served by a commit");
        /* Pane 1's transaction ends with the tick of round 3, which serves pane 2. With hold 0 it writes in round 4 and
         * commits in 5, with hold 1 a round later. Pane 1's next take is in round 5, before pane 2's turn: nothing. */
        for (uint32_t hold = 0; hold <= 1; hold++)
            check(TRY(counts, 8, rounds, 2, 1, 3, 0, 7, EVER, 8, 50, EVER, EVER, 7, EVER, 8, hold, MARK(7)) == 0 &&
                  counted(counts, 1, 0, 1, 1) && counted(counts, 2, rounds >= 5 + hold, 0, 0), "served by a tick");
    }
    /* Both take in round 2, and pane 1 is the first; pane 2 finds nothing, aborts in 3, and takes again in 5. */
    check(TRY(counts, 6, 5, 2, 1, EVER, 0, 7, EVER, 7, 0, EVER, 0, 7, EVER, 7, 0, MARK(7)) == 0 &&
          counted(counts, 1, 1, 0, 0) && counted(counts, 2, 0, 0, 1), "by number");
    check(TRY(counts, 6, 7, 2, 1, EVER, 0, 7, EVER, 7, 0, EVER, 0, 7, EVER, 7, 0, MARK(7)) == 0 &&
          counted(counts, 1, 1, 0, 1) && counted(counts, 2, 1, 0, 1), "and in turn");
}

#define PANE 9, 0, 7, EVER, 8, 0

/* Each of the limits, from both sides, and words that are no setup: 23; then 24. */
static void judge_setups(void)
{
    const uint64_t bad = UINT64_C(65536) * SPACE_REFUSAL_BAD_SETUP;
    const uint64_t rounds = UINT64_C(65536) * SPACE_REFUSAL_TOO_MANY_ROUNDS;
    uint32_t counts[KEPT];
    check(space_trial_number(bad) == 23 && space_trial_number(rounds) == 24 && space_trial_number(0) == 0, "numbers");
    check(TRY(counts, 12, 9, 0, 0) == bad && TRY(counts, 12, 9, 0, 1, MARK(7)) == bad, "no pane");
    check(TRY(counts, 12, 9, 4, 0, PANE, PANE, PANE, PANE) == 0, "4 panes");
    check(TRY(counts, 16, 9, 5, 0, PANE, PANE, PANE, PANE, PANE) == bad, "5 panes");
    check(TRY(counts, 3, 9, 1, 8, PANE, MARK(1), MARK(2), MARK(3), MARK(4), MARK(5), MARK(6), MARK(7), MARK(8)) == 0,
          "8 starting entries");
    check(TRY(counts, 3, 9, 1, 9, PANE, MARK(1), MARK(2), MARK(3), MARK(4), MARK(5), MARK(6), MARK(7), MARK(8), MARK(9))
          == bad, "9 starting entries");
    check(space_trial(NULL, 0, counts, KEPT) == bad && TRY(counts, 12, 9) == bad && TRY(counts, 12, 9, 1) == bad,
          "under 3 words");
    check(TRY(counts, 3, 9, 1, 0, 9, 0, 7, EVER, 8) == bad && TRY(counts, 3, 9, 1, 1, PANE, 7, 1, 40, 9) == bad,
          "words too few");
    check(TRY(counts, 3, 9, 1, 0, PANE, 0) == bad && TRY(counts, 3, 9, 1, 1, PANE, MARK(7), 0) == bad,
          "words left over");
    check(TRY(counts, 2, 9, 1, 0, PANE) == bad && TRY(counts, 5, 9, 2, 0, PANE, PANE) == bad, "short counts");
    check(space_trial((const uint32_t[]){9, 1, 0, PANE}, 9, NULL, 0) == bad, "no counts");
    check(TRY(counts, 12, 9, EVER, 0, PANE) == bad && TRY(counts, 12, 9, 1, EVER, PANE) == bad, "huge numbers");
    check(TRY(counts, 12, 9, 715827883, 0, 1, 2) == bad, "a number of panes that is 2 words in 32 bits");
    check(TRY(counts, 12, 9, 1, 858993460, PANE, 1, 2, 3, 4) == bad, "a number of entries that is 4 words");
    check(TRY(counts, 3, 1000, 1, 0, PANE) == 0 && TRY(counts, 3, 1001, 1, 0, PANE) == rounds, "1,000 rounds");
    check(TRY(counts, 3, EVER, 1, 0, PANE) == rounds, "huge rounds");
    check(TRY(counts, 2, 1001, 1, 0, PANE) == bad && TRY(counts, 12, 1001, 0, 0) == bad, "24 comes after 23");
}

/* A report with words about it, which no call may change. */
static uint32_t about[4 + SPACE_REPORT_WORDS + 4];
static uint32_t *const report = about + 4;

static void clear_report(void)
{
    memset(about, GUARD, sizeof about);
    sittings_empty(report);
}

/* Hands in bytes, which are only read; gives the number. */
static uint32_t hand_in(const uint8_t *bytes, size_t length)
{
    static uint8_t before[SPACE_MAX_TRAY_BYTES + 1];
    if (length)
        memcpy(before, bytes, length);
    uint64_t returned = sittings_add(report, bytes, length);
    check(length == 0 || memcmp(before, bytes, length) == 0, "a tray is only read");
    check(all((const uint8_t *)about, 16, GUARD) && all((const uint8_t *)(report + SPACE_REPORT_WORDS), 16, GUARD),
          "the words about a report");
    check(returned % 65536 == 0, "a number and nothing else");
    return space_sittings_number(returned);
}

static int handed_in(uint32_t trays, uint32_t refused)
{
    return report[SPACE_REPORT_HANDED_IN] == trays && report[SPACE_REPORT_REFUSED] == refused;
}

/* These are a party's figures. */
static int figures(uint8_t party, uint32_t look_ups, uint32_t founds, uint32_t longest, uint32_t ticks, uint32_t waits)
{
    const uint32_t *of = space_report_figures(report, party);
    return of[SPACE_FIGURE_LOOK_UPS] == look_ups && of[SPACE_FIGURE_FOUNDS] == founds &&
           of[SPACE_FIGURE_LONGEST] == longest && of[SPACE_FIGURE_TICKS] == ticks && of[SPACE_FIGURE_WAITS] == waits;
}

/* No word of the figures of any party is other than 0. */
static int no_figures(void)
{
    return all((const uint8_t *)(report + SPACE_REPORT_FIGURES_AT), 4 * SPACE_FIGURE_WORDS * SPACE_MAX_PARTY, 0);
}

static void add_take(uint8_t party, uint32_t kind, uint32_t timeout, uint32_t transaction)
{
    const uint32_t fields[4] = {kind};
    add_frame(space_frame_look_up(frame, SPACE_OP_TAKE, party, SPACE_MASK_KIND, fields, timeout, transaction));
}

static void add_ticks(int ticks)
{
    for (int i = 0; i < ticks; i++)
        add_frame(space_frame_tick(frame));
}

/* Nothing, the empty tray, and the sample tray: its take finds at once, so there is a look-up and no wait. */
static void report_sample(void)
{
    memset(about, GUARD, sizeof about);
    sittings_empty(report);
    check(SPACE_REPORT_WORDS == 82 && all((const uint8_t *)report, 4 * 82, 0), "the report of no tray");
    check(hand_in((const uint8_t[4]){0}, 4) == 0 && handed_in(1, 0) && no_figures(), "the empty tray");
    check(hand_in(sample, sizeof sample) == 0 && handed_in(2, 0) && figures(2, 1, 1, 0, 0, 0), "found at once");
    check(figures(1, 0, 0, 0, 0, 0) && figures(3, 0, 0, 0, 0, 0), "and nobody else's");
}

/* Every way in which a wait ends. At clock 0 parties 2, 3, 4, 5 and 16 begin to wait, 4 and 5 in transactions 1 and 2.
 * Party 16 looks up once more, which is refused.
 *   clock 1: party 5 aborts, party 1 writes what party 2 waits for        party 5 has waited 1, party 2 1
 *   clock 2: the deadline of party 3                                      party 3 has waited 2
 *   clock 3: the end of transaction 1; party 2 waits anew and is served   party 4 has waited 3, party 2 0
 *   clock 4: the end of the tray                                          party 16 has waited 4
 * Handed in three times, all is three times as much, but the longest wait. */
static void report_waits(void)
{
    clear_tray();
    add_frame(space_frame_create(frame, 4, 3));                             /* transaction 1 */
    add_frame(space_frame_create(frame, 5, SPACE_FOREVER));                 /* transaction 2 */
    add_take(2, 7, 9, 0);
    add_take(3, 8, 2, 0);
    add_take(4, 8, 9, 1);
    add_take(5, 8, 9, 2);
    add_take(16, 8, SPACE_FOREVER, 0);
    add_take(16, 7, 9, 0);                                                  /* refused: it waits */
    add_ticks(1);
    add_frame(space_frame_abort(frame, 5, 2));
    add_frame(space_frame_write(frame, 1, mark, SPACE_FOREVER, 0));
    add_ticks(2);
    add_take(2, 7, 9, 0);
    add_frame(space_frame_write(frame, 1, mark, SPACE_FOREVER, 0));
    add_ticks(1);
    clear_report();
    for (uint32_t n = 1; n <= 3; n++) {
        check(hand_in(tray, tray_len) == 0 && handed_in(n, 0), "a tray is handed in");
        check(figures(2, 2 * n, 2 * n, 1, 1 * n, 2 * n), "served, and once without a tick");
        check(figures(3, n, 0, 2, 2 * n, n), "the tick of the deadline counts");
        check(figures(4, n, 0, 3, 3 * n, n), "closed by the exception");
        check(figures(5, n, 0, 1, 1 * n, n), "closed by its abort");
        check(figures(16, n, 0, 4, 4 * n, n), "open to the end of the tray; the refused look-up is none");
        check(figures(1, 0, 0, 0, 0, 0) && figures(6, 0, 0, 0, 0, 0) && figures(15, 0, 0, 0, 0, 0), "no one else's");
    }
}

/* Served by a commit and by a tick, and closed when no conflict is left. At clock 2 transaction 1 is committed, and
 * parties 2 and 3 read its entry; transaction 2 takes it, and parties 2, 3 and 4 wait for it. The tick to clock 3
 * brings it back: party 2 takes it, no conflict is left for party 4's takeIfExists, and party 3 waits on to the end of
 * the tray, at clock 7. In a second tray an abort serves party 3, after less than its longest wait. */
static void report_service(void)
{
    const uint32_t asked[4] = {7};
    clear_tray();
    add_frame(space_frame_create(frame, 1, SPACE_FOREVER));                 /* transaction 1 */
    add_frame(space_frame_write(frame, 1, mark, SPACE_FOREVER, 1));
    for (uint8_t party = 2; party <= 3; party++)
        add_frame(space_frame_look_up(frame, SPACE_OP_READ, party, SPACE_MASK_KIND, asked, 9, 0));
    add_ticks(2);
    add_frame(space_frame_commit(frame, 1, 1));                             /* 2 and 3 have waited 2 */
    add_frame(space_frame_create(frame, 5, 1));                             /* transaction 2 */
    add_take(5, 7, 0, 2);
    add_take(2, 7, 9, 0);
    add_frame(space_frame_look_up(frame, SPACE_OP_READ, 3, SPACE_MASK_KIND, asked, 9, 0));
    add_frame(space_frame_look_up(frame, SPACE_OP_TAKE_IF_EXISTS, 4, SPACE_MASK_KIND, asked, 9, 0));
    add_ticks(1);                                                           /* 2 has waited 1, and 4 in vain */
    add_frame(space_frame_create(frame, 5, 9));                             /* transaction 3 */
    add_frame(space_frame_write(frame, 5, mark, SPACE_FOREVER, 3));
    add_frame(space_frame_abort(frame, 5, 3));
    add_ticks(4);
    clear_report();
    check(hand_in(tray, tray_len) == 0, "a tray is handed in");
    check(figures(2, 2, 2, 2, 3, 2), "served by a commit, then by a tick");
    check(figures(3, 2, 1, 5, 7, 2), "an entry that is written and aborted serves nobody");
    check(figures(4, 1, 0, 1, 1, 1) && figures(5, 1, 1, 0, 0, 0), "no conflict left; found at once");
    clear_tray();
    add_frame(space_frame_write(frame, 1, mark, SPACE_FOREVER, 0));
    add_frame(space_frame_create(frame, 1, SPACE_FOREVER));
    add_take(1, 7, 0, 1);
    add_take(3, 7, 9, 0);
    add_ticks(4);
    add_frame(space_frame_abort(frame, 1, 1));                              /* the entry is back: 3 has waited 4 */
    check(hand_in(tray, tray_len) == 0 && figures(3, 3, 2, 5, 11, 3), "served by an abort, less than the longest");
}

/* A look-up counts exactly if it is of operations 2 to 5 and of a party; one that is refused is nobody's. */
static void report_parties(void)
{
    for (unsigned party = 0; party < 256; party++) {
        clear_tray();
        add_take((uint8_t)party, 7, 0, 0);
        clear_report();
        check(hand_in(tray, tray_len) == 0, "a tray is handed in");
        int is_party = party >= 1 && party <= SPACE_MAX_PARTY;
        check(is_party ? figures((uint8_t)party, 1, 0, 0, 0, 0) : no_figures(), "a look-up of a party");
    }
    for (unsigned operation = 0; operation < 256; operation++) {
        clear_tray();
        add_frame(space_frame(frame, (uint8_t)operation, 3));
        clear_report();
        check(hand_in(tray, tray_len) == 0, "a tray is handed in");
        int is_look_up = operation >= SPACE_OP_READ && operation <= SPACE_OP_TAKE_IF_EXISTS;
        check(is_look_up ? figures(3, 1, 0, 0, 0, 0) : no_figures(), "a frame that is a look-up");
    }
}

/* To the last frame, whatever the records: 880 takes, each served by the write behind it without a tick, give 2,640
 * records, which are 73,920 bytes. */
static void report_long_tray(void)
{
    clear_tray();
    for (int i = 0; i < 880; i++) {
        add_take(2, 7, 9, 0);
        add_frame(space_frame_write(frame, 1, mark, SPACE_FOREVER, 0));
    }
    check(space_run_number(space_run_tray(tray, tray_len, answers, sizeof answers)) == 1, "65,536 bytes are too few");
    clear_report();
    check(hand_in(tray, tray_len) == 0 && figures(2, 880, 880, 0, 0, 880), "a tray of 1,760 frames");
}

/* Refused trays count as handed in and as refused, and none of their look-ups does. Behind 64 trays, refused or not,
 * all others get 25, and no word changes. */
static void report_refused(void)
{
    static uint32_t before[4 + SPACE_REPORT_WORDS + 4];
    clear_report();
    check(hand_in(NULL, 0) == 15 && handed_in(1, 1) && no_figures(), "no tray");
    check(hand_in(sample, 27) == 15 && hand_in(sample, sizeof sample - 1) == 16 && handed_in(3, 3), "a short tray");
    memcpy(tray, sample, sizeof sample);
    check(hand_in(tray, SPACE_MAX_TRAY_BYTES + 1) == 15 && handed_in(4, 4) && no_figures(), "a long one");
    check(hand_in(sample, sizeof sample) == 0 && handed_in(5, 4) && figures(2, 1, 1, 0, 0, 0), "one that is run");
    check(hand_in(sample, sizeof sample - 1) == 16 && handed_in(6, 5) && figures(2, 1, 1, 0, 0, 0), "figures stay");
    for (uint32_t trays = 7; trays <= SPACE_REPORT_MAX_TRAYS; trays++)
        check(hand_in(sample, sizeof sample) == 0 && handed_in(trays, 5), "up to 64 trays");
    check(figures(2, 59, 59, 0, 0, 0), "64 trays, 5 of them refused");
    memcpy(before, about, sizeof about);
    check(hand_in(sample, sizeof sample) == SPACE_REFUSAL_TOO_MANY_TRAYS && hand_in(NULL, 0) == 25 &&
          hand_in(sample, sizeof sample - 1) == 25, "65 trays, whatever the last one is");
    check(memcmp(before, about, sizeof about) == 0, "25 changes no word");
    clear_report();
    for (uint32_t trays = 1; trays <= SPACE_REPORT_MAX_TRAYS; trays++)
        check(hand_in(NULL, 0) == 15 && handed_in(trays, trays), "refused ones are among the 64");
    check(hand_in(sample, sizeof sample) == 25 && handed_in(64, 64), "and fill them");
}

/* Words that no call made. */
static void report_on_odd_words(void)
{
    static const uint32_t full[] = {64, 65, 255, 256, 65536 + 3, 2147483648u, SPACE_FOREVER};
    static uint32_t before[4 + SPACE_REPORT_WORDS + 4];
    for (size_t i = 0; i < sizeof full / sizeof full[0]; i++) {
        clear_report();
        report[SPACE_REPORT_HANDED_IN] = full[i];
        memcpy(before, about, sizeof about);
        check(hand_in(sample, sizeof sample) == 25 && hand_in(NULL, 0) == 25, "25, whatever the words are");
        check(memcmp(before, about, sizeof about) == 0, "and none changes");
    }
    clear_report();
    memset(report, 0xff, 4 * SPACE_REPORT_WORDS);
    report[SPACE_REPORT_HANDED_IN] = 62;
    check(hand_in(sample, sizeof sample - 1) == 16, "a refused tray");
    check(all((const uint8_t *)(report + SPACE_REPORT_FIGURES_AT), 4 * 80, 0xff), "all words but the first two stay");
    check(hand_in(sample, sizeof sample) == 0, "one that is run ends as well");
}

/* Words that no frames make: 16 look-ups wait, and none is of a party that there is. A refused frame is answered as
 * ever and changes nothing; one that is carried out ends, and keeps to its buffers (host/damaged.c has pages that may
 * not be touched around them). */
static void step_where_none_can_wait(void)
{
    static uint32_t before[SPACE_WORDS];
    space_empty(space);
    space[SPACE_WORD_WAITING_COUNT] = SPACE_MAX_WAITING;
    for (uint32_t row = 0; row < SPACE_MAX_WAITING; row++) {
        uint32_t *wait = space + SPACE_WAITING_AT + SPACE_WAITING_WORDS * row;
        wait[SPACE_WAITING_PARTY] = SPACE_MAX_PARTY + 1 + row;
        wait[SPACE_WAITING_OPERATION] = SPACE_OP_TAKE;
        wait[SPACE_WAITING_DEADLINE] = SPACE_FOREVER;
    }
    memcpy(before, space, sizeof space);
    check(step(space_frame_commit(frame, 1, 1)).refusal == SPACE_REFUSAL_NOT_LIVE, "none can wait: 7");
    check(memcmp(before, space, sizeof space) == 0, "none can wait: a refused frame leaves the space as it was");
    memset(answers, 0xa5, SPACE_STEP_BYTES);
    for (uint8_t party = 1; party <= SPACE_MAX_PARTY; party++) {
        size_t length = space_frame_look_up(frame, SPACE_OP_READ, party, 0, mark, SPACE_FOREVER, 0);
        check(space_step(space, frame, length, answers, SPACE_STEP_BYTES) == 1, "none can wait: one record");
        check(answers[0] == SPACE_RECORD_WAITING && answers[1] == party, "none can wait: waiting");
        check(all(answers + SPACE_RECORD_BYTES, SPACE_STEP_BYTES - SPACE_RECORD_BYTES, 0xa5),
              "none can wait: the rest");
    }
    check(space_step(space, frame, space_frame_tick(frame), answers, SPACE_STEP_BYTES) % 65536 >= 1, "and a tick");
}

/* Words of 0 are no empty space, as docs/MANUAL.md tells. */
static void use_zeroed_words(void)
{
    memset(space, 0, sizeof space);
    check(step(space_frame_write(frame, 1, mark, SPACE_FOREVER, 0)).entry == 0, "entry 0");
    struct space_record created = step(space_frame_create(frame, 2, 1));
    check(created.kind == SPACE_RECORD_CREATED && created.transaction == 0, "transaction 0");
    check(step(space_frame_commit(frame, 2, 0)).refusal == SPACE_REFUSAL_NOT_LIVE, "it cannot be committed");
    check(step(space_frame_abort(frame, 2, 0)).refusal == SPACE_REFUSAL_NOT_LIVE, "it cannot be aborted");
    struct space_record notified = step(space_frame_notify(frame, 3, 0, mark, 1));
    check(notified.kind == SPACE_RECORD_NOTIFIED && notified.entry == 0, "registration 0");
    step(space_frame_write(frame, 2, mark, SPACE_FOREVER, 0));
    check(step(space_frame_look_up(frame, SPACE_OP_READ, 3, 0, mark, 0, 0)).kind == SPACE_RECORD_FOUND, "not private");
    check(space_step(space, frame, space_frame_tick(frame), answers, SPACE_STEP_BYTES) == 2, "its end");
    check(answers[SPACE_RECORD_BYTES] == SPACE_RECORD_EXCEPTION, "its exception");
    check(space[SPACE_WORD_ENTRY_COUNT] == 0, "every committed entry is removed");
}

int main(void)
{
    check(space_version() == SPACE_VERSION, "the archive's version");
    run_sample();
    step_sample();
    pass_nulls();
    build_frames();
    judge_lengths();
    read_words();
    find_oldest();
    serve_oldest();
    judge_masks();
    find_blanks();
    serve_blanks();
    renew_entries();
    outlive_leases();
    judge_renewals();
    judge_templates();
    ring_bells();
    ring_for_blanks();
    stay_silent();
    judge_notifies();
    convert_times();
    convert_places();
    find_arcs();
    serve_arcs();
    judge_arcs();
    bound_trays();
    bound_kinds();
    run_in_bounds();
    find_orders();
    judge_exports();
    try_one_pane();
    try_two_panes();
    judge_setups();
    report_sample();
    report_waits();
    report_service();
    report_parties();
    report_long_tray();
    report_refused();
    report_on_odd_words();
    step_on_odd_words();
    step_where_none_can_wait();
    use_zeroed_words();
    return 0;
}
