/* A small host: it builds a tray, runs it in an area that is as big as the tray wants, and prints the records in words.
 *     cc -I host -o example host/example.c crates/space/out/libspace.a */
#include <stdlib.h>
#include "print_record.h"

enum { FRAMES = 7, PAIRS_END = SPACE_TRAY_COUNT_BYTES + SPACE_TRAY_PAIR_BYTES * FRAMES };

static uint8_t tray[PAIRS_END + SPACE_MAX_FRAME_BYTES * FRAMES];
static size_t frames, end = PAIRS_END;

/* The frame stands at the tray's end already: gives it its pair. */
static void add_frame(size_t length)
{
    uint8_t *pair = tray + SPACE_TRAY_COUNT_BYTES + SPACE_TRAY_PAIR_BYTES * frames;
    space_put_word(pair, (uint32_t)end);
    space_put_word(pair + 4, (uint32_t)length);
    end += length;
    space_put_word(tray, (uint32_t)++frames);
}

/* Runs the tray and prints what comes; gives the number. */
static uint32_t run_tray(void)
{
    uint64_t bounds = space_tray_bounds(tray, end);
    size_t answers_len = space_bounds_area(bounds);
    uint8_t *answers = malloc(answers_len);
    if (!answers)
        return SPACE_REFUSAL_AREA_TOO_SMALL;
    printf("at most %" PRIu32 " records: an area of %zu bytes\n", space_bounds_records(bounds), answers_len);

    uint64_t returned = space_run_tray(tray, end, answers, answers_len);
    for (uint32_t i = 0; i < space_run_records(returned); i++) {
        struct space_record record = space_record_at(answers, i);
        printf("party %d: ", record.party); /* 0: the clock */
        print_record(record);
    }
    printf("%" PRIu32 " frames, %" PRIu32 " records, number %" PRIu32 "\n", space_run_frames(returned),
           space_run_records(returned), space_run_number(returned));
    free(answers);
    return space_run_number(returned);
}

int main(void)
{
    const uint32_t mark[4] = {7, 1, 40, 9};
    add_frame(space_frame_write(tray + end, 1, mark, 5, 0));     /* lease 5 */
    add_frame(space_frame_create(tray + end, 2, 2));             /* transaction 1, lease 2 */
    add_frame(space_frame_look_up(tray + end, SPACE_OP_TAKE, 2, SPACE_MASK_KIND, mark, 0, 1)); /* inside it */
    add_frame(space_frame_look_up(tray + end, SPACE_OP_TAKE, 3, SPACE_MASK_KIND, mark, SPACE_FOREVER, 0)); /* waits */
    add_frame(space_frame_tick(tray + end));
    add_frame(space_frame_tick(tray + end));                     /* transaction 1 ends */
    add_frame(space_frame_commit(tray + end, 2, 1));             /* too late */
    return run_tray() != 0;
}
