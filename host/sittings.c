/* A host that compares how long panes wait: it puts the trays of a few days together, hands them in, and prints the
 * table by party with the mean waits.
 *     cc -I host -o sittings host/sittings.c crates/space/out/libspace.a */
#include <inttypes.h>
#include <stdio.h>
#include "space_frames.h"

enum { MARKS = 1, REPORT = 2, STRIP = 3, THUMBS = 4, MARK = 7, FINDING = 8, MOST_FRAMES = 64 };

/* A tray with room for so many pairs; gaps are ignored. */
enum { FRAMES_AT = SPACE_TRAY_COUNT_BYTES + SPACE_TRAY_PAIR_BYTES * MOST_FRAMES };
static uint8_t tray[FRAMES_AT + SPACE_MAX_FRAME_BYTES * MOST_FRAMES], frame[SPACE_MAX_FRAME_BYTES];
static size_t tray_len;

static void clear_tray(void)
{
    space_put_word(tray, 0);
    tray_len = FRAMES_AT;
}

static void add_frame(size_t length)
{
    uint32_t count = space_get_word(tray);
    uint8_t *pair = tray + SPACE_TRAY_COUNT_BYTES + SPACE_TRAY_PAIR_BYTES * count;
    space_put_word(pair, (uint32_t)tray_len);
    space_put_word(pair + 4, (uint32_t)length);
    memcpy(tray + tray_len, frame, length);
    tray_len += length;
    space_put_word(tray, count + 1);
}

static void write_entry(uint8_t party, uint32_t kind)
{
    add_frame(space_frame_write(frame, party, (uint32_t[4]){kind, 1, 40, 9}, SPACE_FOREVER, 0));
}

static void look_up(uint8_t operation, uint8_t party, uint32_t kind, uint32_t timeout)
{
    add_frame(space_frame_look_up(frame, operation, party, SPACE_MASK_KIND, (uint32_t[4]){kind}, timeout, 0));
}

/* One day: so many marks, and so many ticks before each. The report pane waits for a mark, up to 5 ticks, and writes a
 * finding as soon as it has it; the strip waits for the finding, up to 9 ticks. The thumbnails never wait. */
static void put_day(int marks, int pause)
{
    clear_tray();
    for (int i = 0; i < marks; i++) {
        look_up(SPACE_OP_TAKE, REPORT, MARK, 5);
        look_up(SPACE_OP_TAKE, STRIP, FINDING, 9);
        for (int j = 0; j < pause; j++)
            add_frame(space_frame_tick(frame));
        write_entry(MARKS, MARK);
        if (pause < 5)
            write_entry(REPORT, FINDING);
        look_up(SPACE_OP_READ, THUMBS, MARK, 0);
    }
}

static void hand_in(uint32_t report[SPACE_REPORT_WORDS], const char *day)
{
    uint32_t number = space_sittings_number(sittings_add(report, tray, tray_len));
    printf("%s: ", day);
    if (number)
        printf("refused with %" PRIu32 ": %s\n", number, space_refusal_meaning(number));
    else
        printf("%" PRIu32 " frames\n", space_get_word(tray));
}

/* The mean in tenths of a tick, rounded to the nearest. */
static void print_mean(uint64_t ticks, uint64_t waits)
{
    uint64_t tenths = waits ? (20 * ticks + waits) / (2 * waits) : 0;
    if (waits)
        printf(" %6" PRIu64 ".%" PRIu64 "\n", tenths / 10, tenths % 10);
    else
        printf("        -\n");
}

static void print_table(const uint32_t report[SPACE_REPORT_WORDS])
{
    printf("party look-ups founds waits ticks longest mean wait\n");
    for (uint8_t party = 1; party <= SPACE_MAX_PARTY; party++) {
        const uint32_t *of = space_report_figures(report, party);
        if (of[SPACE_FIGURE_LOOK_UPS] == 0)
            continue;
        printf("%5u %8" PRIu32 " %6" PRIu32 " %5" PRIu32 " %5" PRIu32 " %7" PRIu32, party, of[SPACE_FIGURE_LOOK_UPS],
               of[SPACE_FIGURE_FOUNDS], of[SPACE_FIGURE_WAITS], of[SPACE_FIGURE_TICKS], of[SPACE_FIGURE_LONGEST]);
        print_mean(of[SPACE_FIGURE_TICKS], of[SPACE_FIGURE_WAITS]);
    }
    printf("of %" PRIu32 " trays, %" PRIu32 " refused\n", report[SPACE_REPORT_HANDED_IN], report[SPACE_REPORT_REFUSED]);
}

int main(void)
{
    uint32_t report[SPACE_REPORT_WORDS];
    sittings_empty(report);
    put_day(5, 1);
    hand_in(report, "Monday");
    put_day(3, 4);
    hand_in(report, "Tuesday");
    put_day(1, 7); /* the mark comes too late, and in the evening the strip still waits */
    hand_in(report, "Wednesday");
    put_day(4, 0); /* without a tick: waits of 0 ticks */
    hand_in(report, "Thursday");
    tray_len--; /* a file that was cut short */
    hand_in(report, "Friday");
    print_table(report);
    while (report[SPACE_REPORT_HANDED_IN] < SPACE_REPORT_MAX_TRAYS)
        sittings_add(report, tray, tray_len);
    hand_in(report, "too much");
    return 0;
}
