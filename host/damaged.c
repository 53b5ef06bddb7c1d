/* Runs damaged trays, garbled frames, exports, setups and reports in buffers of the exact length: damaged COUNT SEED
 * [fence]. A tray's answers area is any, and then of the size that its bounds give.
 * Without `fence` the buffers are from malloc and stay unset, for valgrind or the address sanitizer. With it a page
 * that may not be touched adjoins each buffer, before it or behind it, so that a byte too far ends the program. */
#define _DEFAULT_SOURCE
#include <stdio.h>
#include <stdlib.h>
#include <sys/mman.h>
#include "space_frames.h"

enum { PAGE = 4096, ROOM = 20 * PAGE, MOST_FRAMES = 120 };

static uint64_t state;
static int fenced;
static long in_bounds; /* trays that were run in the area of their bounds */
static long tried;     /* setups that were not refused */
static long sat;       /* trays that a report of calls alone took in */

static uint32_t below(uint32_t bound)
{
    state ^= state << 13;
    state ^= state >> 7;
    state ^= state << 17;
    return (uint32_t)(state >> 33) % bound;
}

static uint32_t odd_number(void)
{
    static const uint32_t odd[] = {0, 1, 3, 27, 28, 65535, 65536, 4294967294u, 4294967295u};
    return below(2) ? odd[below(sizeof odd / sizeof odd[0])] : below(4294967295u);
}

/* A buffer of this length; `slot` tells buffers of one call apart. */
static uint8_t *buffer(int slot, size_t length)
{
    static uint8_t *rooms[3];
    if (!fenced)
        return malloc(length);
    if (!rooms[slot]) {
        uint8_t *map = mmap(NULL, ROOM + 2 * PAGE, PROT_NONE, MAP_PRIVATE | MAP_ANONYMOUS, -1, 0);
        if (map == MAP_FAILED || mprotect(map + PAGE, ROOM, PROT_READ | PROT_WRITE) != 0)
            exit(2);
        rooms[slot] = map + PAGE;
    }
    return below(2) ? rooms[slot] : rooms[slot] + ROOM - length;
}

static void release(uint8_t *memory)
{
    if (!fenced)
        free(memory);
}

static int has_template(int operation)
{
    return (operation >= SPACE_OP_READ && operation <= SPACE_OP_TAKE_IF_EXISTS) || operation == SPACE_OP_NOTIFY;
}

/* A frame of any operation, its fields but the kind 0; in a write some of these are blank. A renew has an entry's
 * number in place of a transaction's. */
static size_t put_frame(uint8_t *frame, int operation, int party, uint32_t transaction, uint32_t duration)
{
    int asks = has_template(operation);
    uint8_t blanks = operation == SPACE_OP_WRITE ? (uint8_t)(2 * below(8)) : 0;
    uint8_t whole[SPACE_MAX_FRAME_BYTES] = {(uint8_t)operation, (uint8_t)party, asks ? SPACE_MASK_KIND : blanks};
    size_t length = space_frame_bytes((uint8_t)operation);
    space_put_word(whole + SPACE_FRAME_AT_TRANSACTION, transaction);
    space_put_word(whole + SPACE_FRAME_AT_DURATION, duration);
    space_put_word(whole + SPACE_FRAME_AT_FIELDS, 1);
    memcpy(frame, whole, length);
    return length;
}

/* A random frame, garbled in some cases. */
static size_t make_frame(uint8_t frame[SPACE_MAX_FRAME_BYTES])
{
    int operation = 1 + (int)below(SPACE_OP_RENEW);
    int party = operation == SPACE_OP_TICK ? 0 : 1 + (int)below(5);
    int names_none = operation == SPACE_OP_CREATE || operation == SPACE_OP_NOTIFY || below(2);
    uint32_t transaction = operation == SPACE_OP_RENEW ? below(30) /* an entry */ : names_none ? 0 : below(9);
    memset(frame, 0, SPACE_MAX_FRAME_BYTES);
    size_t length = put_frame(frame, operation, party, transaction, below(9) ? below(6) : odd_number());
    if (has_template(operation) && !below(3)) {
        uint32_t arc = below(6) ? space_arc(below(SPACE_PLACES), below(SPACE_PLACES)) : odd_number();
        frame[2] |= SPACE_MASK_ARC;
        space_put_word(frame + SPACE_FRAME_AT_FIELDS + 12, arc);
    }
    if (!below(12))
        frame[below(SPACE_MAX_FRAME_BYTES)] = (uint8_t)below(256);
    if (!below(12))
        length = below(SPACE_MAX_FRAME_BYTES + 1);
    return length;
}

static size_t make_tray(uint8_t *tray)
{
    uint32_t frames = below(MOST_FRAMES + 1);
    size_t end = 4 + 8 * (size_t)frames;
    space_put_word(tray, frames);
    for (uint32_t i = 0; i < frames; i++) {
        uint8_t frame[SPACE_MAX_FRAME_BYTES];
        size_t length = make_frame(frame);
        space_put_word(tray + 4 + 8 * i, (uint32_t)end);
        space_put_word(tray + 8 + 8 * i, (uint32_t)length);
        memcpy(tray + end, frame, length);
        end += length;
    }
    switch (below(8)) {
    case 0: return below((uint32_t)end + 1);
    case 1: space_put_word(tray, odd_number()); break;
    case 2: case 3:
        if (frames)
            space_put_word(tray + 4 + 4 * below(2 * frames), odd_number());
        break;
    case 4: tray[below((uint32_t)end)] = (uint8_t)below(256); break;
    case 5: return 65535 + below(3);
    default: break;
    }
    return end;
}

static void fail(const char *what, uint64_t returned)
{
    fprintf(stderr, "damaged: %s, returned %llx\n", what, (unsigned long long)returned);
    exit(1);
}

/* Of the four fields of a found, those that are blank are 0; no other record has blanks. */
static int blanks_fit(struct space_record record)
{
    int fit = record.blanks < 16 && (record.kind == SPACE_RECORD_FOUND || record.blanks == 0);
    for (int i = 0; i < 4; i++)
        fit &= record.fields[i] == 0 || !(record.blanks >> i & 1);
    return fit;
}

/* Every record is fully written: valgrind reports a test on a byte that is not. `odd`: on words that frames did not
 * make, where any byte may be an entry's blanks. */
static void read_records(const uint8_t *answers, uint32_t records, int odd)
{
    uint32_t with_words = 0;
    for (uint32_t i = 0; i < records; i++) {
        const uint8_t *record = answers + SPACE_RECORD_BYTES * i;
        int refused = record[0] == SPACE_RECORD_REFUSED, found = record[0] == SPACE_RECORD_FOUND;
        uint32_t any = record[SPACE_RECORD_AT_BLANKS];
        for (int at = 4; at < SPACE_RECORD_BYTES; at += 4)
            any |= space_get_word(record + at);
        if (record[0] == 0 || (record[0] > SPACE_RECORD_RENEWED && !refused))
            fail("a record", i);
        if (!(odd && found) && !blanks_fit(space_record_at(answers, i)))
            fail("a record's blanks", i);
        if ((record[2] != 0) != refused || (refused && any != 0))
            fail("a refused record", i);
        with_words += any != 0;
    }
    if (with_words > records)
        fail("records", records);
}

/* The tray's bounds: the number that its run has; or else its run in an area of just their size does every frame. */
static void run_in_bounds(const uint8_t *tray, size_t tray_len, uint32_t number)
{
    uint64_t bounds = space_tray_bounds(tray, tray_len);
    uint32_t refused = number > SPACE_REFUSAL_AREA_TOO_SMALL ? number : 0;
    if (space_bounds_number(bounds) != refused || (refused && bounds % UINT64_C(4294967296) != 0))
        fail("the number of bounds", bounds);
    if (refused)
        return;
    size_t answers_len = space_bounds_area(bounds);
    uint8_t *answers = buffer(2, answers_len);
    uint64_t returned = space_run_tray(tray, tray_len, answers, answers_len);
    if (space_run_number(returned) != 0 || space_run_frames(returned) != space_get_word(tray))
        fail("a run in the area of its bounds", returned);
    if (space_run_records(returned) > space_bounds_records(bounds) || space_bounds_entries(bounds) > SPACE_MAX_ENTRIES)
        fail("bounds", bounds);
    read_records(answers, space_run_records(returned), 0);
    release(answers);
    in_bounds++;
}

static void run_one_tray(void)
{
    static uint8_t made[SPACE_MAX_TRAY_BYTES + 8];
    size_t tray_len = make_tray(made);
    size_t answers_len = below(4) ? below(6000) : below(65537);
    uint8_t *tray = buffer(0, tray_len), *answers = buffer(1, answers_len);
    memcpy(tray, made, tray_len);
    if (fenced)
        memset(answers, 0x5a, answers_len);
    uint64_t returned = space_run_tray(tray, tray_len, answers, answers_len);
    uint32_t records = space_run_records(returned), number = space_run_number(returned);
    if (space_run_frames(returned) > SPACE_MAX_TRAY_FRAMES || SPACE_RECORD_BYTES * (size_t)records > answers_len)
        fail("counts", returned);
    if (number > SPACE_REFUSAL_AREA_TOO_SMALL && number != SPACE_REFUSAL_BAD_TRAY && number != SPACE_REFUSAL_BAD_PAIR)
        fail("number", returned);
    read_records(answers, records, 0);
    for (size_t i = SPACE_RECORD_BYTES * (size_t)records; fenced && i < answers_len; i++)
        if (answers[i] != 0x5a)
            fail("a byte after the last record", returned);
    run_in_bounds(tray, tray_len, number);
    if (memcmp(tray, made, tray_len) != 0)
        fail("the tray was changed", returned);
    release(tray);
    release(answers);
}

/* The longest step: eight transactions that hold sixteen entries end together, all sixteen parties wait for them, and
 * the last of the 25 records ends with the area. */
static void run_longest_step(void)
{
    static uint32_t fresh[SPACE_WORDS];
    uint8_t frame[SPACE_MAX_FRAME_BYTES];
    uint64_t returned = 0;
    space_empty(fresh);
    for (int i = 0; i < 57; i++) {
        size_t frame_len = i < 16   ? put_frame(frame, SPACE_OP_WRITE, 1, 0, SPACE_FOREVER)
                           : i < 24 ? put_frame(frame, SPACE_OP_CREATE, i - 15, 0, 1)
                           : i < 40 ? put_frame(frame, SPACE_OP_TAKE, (i - 22) / 2, (uint32_t)(i - 22) / 2, 0)
                           : i < 56 ? put_frame(frame, SPACE_OP_TAKE, i - 39, 0, SPACE_FOREVER)
                                    : put_frame(frame, SPACE_OP_TICK, 0, 0, 0);
        uint8_t *answers = buffer(2, SPACE_STEP_BYTES);
        returned = space_step(fresh, frame, frame_len, answers, SPACE_STEP_BYTES);
        read_records(answers, space_step_records(returned), 0);
        release(answers);
    }
    if (returned != SPACE_MAX_STEP_RECORDS)
        fail("the longest step", returned);
}

/* The longest step with bells: fifteen parties wait for what the sixteenth writes, and eight registrations hear of it.
 * The area is as long as ever, and the records are one fewer than in a tick. */
static void run_longest_ringing(void)
{
    static uint32_t fresh[SPACE_WORDS];
    uint8_t frame[SPACE_MAX_FRAME_BYTES];
    uint64_t returned = 0;
    space_empty(fresh);
    for (int i = 0; i < 24; i++) {
        size_t frame_len = i < 8    ? put_frame(frame, SPACE_OP_NOTIFY, 9 + i, 0, SPACE_FOREVER)
                           : i < 23 ? put_frame(frame, SPACE_OP_READ, i - 6, 0, SPACE_FOREVER)
                                    : put_frame(frame, SPACE_OP_WRITE, 1, 0, SPACE_FOREVER);
        uint8_t *answers = buffer(2, SPACE_STEP_BYTES);
        returned = space_step(fresh, frame, frame_len, answers, SPACE_STEP_BYTES);
        read_records(answers, space_step_records(returned), 0);
        release(answers);
    }
    if (returned != SPACE_MAX_STEP_RECORDS - 1)
        fail("the longest step with bells", returned);
}

/* An export in words of the exact number, whole or cut off, with words changed in some cases. */
static void find_one_order(void)
{
    uint32_t made[SPACE_ORDER_MAX_WORDS + 8] = {below(8)}, end = 1;
    for (uint32_t i = 0; i < made[0] && end + SPACE_ORDER_TRANSACTION_WORDS < SPACE_ORDER_MAX_WORDS + 8; i++) {
        uint32_t actions = made[end++] = below(SPACE_ORDER_MAX_ACTIONS + 1);
        for (uint32_t j = 0; j < actions; j++, end += 2) {
            made[end] = 1 + below(3);
            made[end + 1] = below(3) ? 10 * i + j : below(60);
        }
    }
    if (!below(3))
        made[below(end)] = odd_number();
    size_t words_len = below(4) ? end : below(end + 1), order_len = below(10);
    uint8_t *words = buffer(0, 4 * words_len), *order = buffer(1, order_len);
    memcpy(words, made, 4 * words_len);
    memset(order, 0x5a, order_len);
    uint64_t returned = space_find_order((const uint32_t *)(const void *)words, words_len, order, order_len);
    if (returned > 1 && returned != UINT64_C(65536) * SPACE_REFUSAL_BAD_EXPORT)
        fail("an export", returned);
    for (size_t i = 0; i < order_len; i++)
        if (returned == 1 && i < made[0] ? order[i] >= made[0] : order[i] != 0x5a)
            fail("a byte of the order", i);
    if (memcmp(words, made, 4 * words_len) != 0)
        fail("the export was changed", returned);
    release(words);
    release(order);
}

/* Mostly small numbers, so that panes find what there is and what others write. */
static void put_numbers(uint32_t *words, uint32_t count)
{
    for (uint32_t i = 0; i < count; i++)
        words[i] = below(12) ? below(3) + (below(2) ? 0 : below(8)) : odd_number();
}

/* A setup in words of the exact number, whole or cut off, with words changed in some cases. */
static void try_one_setup(void)
{
    uint32_t made[SPACE_TRIAL_MAX_WORDS] = {below(40), below(SPACE_TRIAL_MAX_PANES + 1),
                                            below(SPACE_TRIAL_MAX_STARTING + 1)};
    uint32_t end = SPACE_TRIAL_PANES_AT + SPACE_PANE_WORDS * made[1] + SPACE_STARTING_WORDS * made[2];
    put_numbers(made + SPACE_TRIAL_PANES_AT, end - SPACE_TRIAL_PANES_AT);
    if (!below(8))
        made[below(SPACE_TRIAL_PANES_AT)] = below(2) ? below(1010) : odd_number();
    size_t setup_len = below(8) ? end : below(SPACE_TRIAL_MAX_WORDS + 1), counts_len = below(8) ? 12 : below(16);
    uint8_t *setup = buffer(0, 4 * setup_len), *counts = buffer(1, 4 * counts_len);
    memcpy(setup, made, 4 * setup_len);
    memset(counts, 0x5a, 4 * counts_len);
    uint64_t returned = space_trial((const uint32_t *)(const void *)setup, setup_len, (uint32_t *)(void *)counts,
                                    counts_len);
    if (returned != 0 && returned != UINT64_C(65536) * SPACE_REFUSAL_BAD_SETUP &&
        returned != UINT64_C(65536) * SPACE_REFUSAL_TOO_MANY_ROUNDS)
        fail("a setup", returned);
    uint32_t written = returned == 0 ? SPACE_COUNT_WORDS * made[SPACE_TRIAL_PANE_COUNT] : 0;
    for (uint32_t i = 0; i < counts_len; i++) {
        uint32_t word = space_get_word(counts + 4 * i);
        if (i < written ? word > made[SPACE_TRIAL_ROUNDS] : word != 0x5a5a5a5a)
            fail("a word of the counts", i);
    }
    if (memcmp(setup, made, 4 * setup_len) != 0)
        fail("the setup was changed", returned);
    tried += returned == 0;
    release(setup);
    release(counts);
}

/* The figures of every party are those of some look-ups, as in every report that calls alone have made. */
static int figures_fit(const uint32_t *report)
{
    int fit = 1;
    for (uint8_t party = 1; party <= SPACE_MAX_PARTY; party++) {
        const uint32_t *of = space_report_figures(report, party);
        uint32_t look_ups = of[SPACE_FIGURE_LOOK_UPS], waits = of[SPACE_FIGURE_WAITS];
        uint32_t longest = of[SPACE_FIGURE_LONGEST], ticks = of[SPACE_FIGURE_TICKS];
        fit &= of[SPACE_FIGURE_FOUNDS] <= look_ups && waits <= look_ups && longest <= ticks && ticks <= longest * waits;
    }
    return fit;
}

/* What a call returned and left, whatever the words were before; `number` is the tray's own. */
static void check_report(const uint32_t *before, const uint32_t *report, uint32_t number, uint64_t returned)
{
    int full = before[SPACE_REPORT_HANDED_IN] >= SPACE_REPORT_MAX_TRAYS;
    if (returned != UINT64_C(65536) * (full ? SPACE_REFUSAL_TOO_MANY_TRAYS : number))
        fail("a report", returned);
    size_t changing = full ? 0 : number ? SPACE_REPORT_FIGURES_AT : SPACE_REPORT_WORDS;
    if (memcmp(report + changing, before + changing, 4 * (SPACE_REPORT_WORDS - changing)) != 0)
        fail("a word of a report was changed", returned);
}

/* A tray is handed in: to a report that calls alone have made, which is emptied once it is full, or to any words. */
static void hand_in_one_tray(void)
{
    static uint8_t made[SPACE_MAX_TRAY_BYTES + 8];
    static uint32_t kept[SPACE_REPORT_WORDS]; /* words of 0 are the report of no tray */
    uint32_t before[SPACE_REPORT_WORDS];
    int odd = !below(3);
    for (int i = 0; i < SPACE_REPORT_WORDS; i++)
        before[i] = !odd ? kept[i] : below(2) ? below(80) : odd_number();
    size_t tray_len = make_tray(made);
    uint8_t *tray = buffer(0, tray_len), *words = buffer(1, sizeof before);
    uint32_t *report = (uint32_t *)(void *)words;
    memcpy(tray, made, tray_len);
    memcpy(report, before, sizeof before);
    uint64_t returned = sittings_add(report, tray, tray_len);
    check_report(before, report, space_bounds_number(space_tray_bounds(tray, tray_len)), returned);
    if (memcmp(tray, made, tray_len) != 0)
        fail("the tray was changed", returned);
    if (!odd) {
        if (!figures_fit(report))
            fail("the figures of a report", returned);
        if (space_sittings_number(returned) == SPACE_REFUSAL_TOO_MANY_TRAYS)
            sittings_empty(report);
        memcpy(kept, report, sizeof kept);
        sat += returned == 0;
    }
    release(tray);
    release(words);
}

/* 0, or a refusal of a frame. */
static int is_frames_number(uint32_t number)
{
    return number <= SPACE_REFUSAL_NUMBERS_USED_UP ||
           (number >= SPACE_REFUSAL_REGISTRATIONS_FULL && number <= SPACE_REFUSAL_BAD_PLACE);
}

static void run_steps(void)
{
    uint32_t *space = (uint32_t *)(void *)buffer(0, 4 * SPACE_WORDS);
    int odd = !below(3); /* words that frames did not make */
    space_empty(space);
    for (int i = 0; odd && i < SPACE_WORDS; i++)
        space[i] = below(2) ? below(20) : odd_number();
    for (int i = 0; i < 100; i++) {
        uint8_t made[SPACE_MAX_FRAME_BYTES];
        size_t frame_len = make_frame(made);
        size_t answers_len = below(5) ? SPACE_STEP_BYTES : below(SPACE_STEP_BYTES + 60);
        uint8_t *frame = buffer(1, frame_len), *answers = buffer(2, answers_len);
        memcpy(frame, made, frame_len);
        uint64_t returned = space_step(space, frame, frame_len, answers, answers_len);
        if (space_step_records(returned) > SPACE_MAX_STEP_RECORDS || !is_frames_number(space_step_number(returned)))
            fail("a step", returned);
        read_records(answers, space_step_records(returned), odd);
        release(frame);
        release(answers);
    }
    release((uint8_t *)space);
}

int main(int count, char **arguments)
{
    if (count < 3) {
        fprintf(stderr, "usage: damaged COUNT SEED [fence]\n");
        return 2;
    }
    long trays = atol(arguments[1]);
    state = 2 * strtoull(arguments[2], NULL, 10) + 1;
    fenced = count > 3 && strcmp(arguments[3], "fence") == 0;
    for (long i = 0; i < trays; i++) {
        run_one_tray();
        find_one_order();
        try_one_setup();
        hand_in_one_tray();
        if (i % 10 == 0) {
            run_steps();
            run_longest_step();
            run_longest_ringing();
        }
    }
    printf("%ld trays, %ld of them also in the area of their bounds, %ld spaces, %ld trials and %ld sittings, no error"
           "\n", trays, in_bounds, (trays + 9) / 10, tried, sat);
    return 0;
}
