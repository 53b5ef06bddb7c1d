/* A host that tries leases before it fixes them: two panes hand marks to each other, and the first may hold a mark for
 * longer and longer. Each line is a trial of 100 rounds.
 *     cc -I host -o trial host/trial.c crates/space/out/libspace.a */
#include <inttypes.h>
#include <stdio.h>
#include "space_frames.h"

enum { PANES = 2, STARTING = 1, TO_MEASURE = 7, MEASURED = 8 };

/* The first pane measures what is marked, the second reports on it and marks anew. */
static uint32_t setup[] = {
    100, PANES, STARTING,
    /* lease of transactions, timeout, takes, lease of what it writes, writes, hold */
    9, 6, TO_MEASURE, SPACE_FOREVER, MEASURED, 0,
    9, 6, MEASURED, SPACE_FOREVER, TO_MEASURE, 1,
    /* kind, side, image, place, lease */
    TO_MEASURE, 1, 40, 9, SPACE_FOREVER,
};
enum { WORDS = sizeof setup / sizeof setup[0] };

static void print_counts(const char *who, const uint32_t counts[SPACE_COUNT_WORDS])
{
    printf("  %s %3" PRIu32 " %3" PRIu32 " %3" PRIu32, who, counts[SPACE_COUNT_COMMITS],
           counts[SPACE_COUNT_EXCEPTIONS], counts[SPACE_COUNT_NOTHINGS]);
}

int main(void)
{
    uint32_t counts[SPACE_COUNT_WORDS * PANES];
    printf("commits, exceptions and nothings in %" PRIu32 " rounds\n", setup[SPACE_TRIAL_ROUNDS]);
    for (uint32_t hold = 0; hold <= 7; hold++) {
        setup[SPACE_TRIAL_PANES_AT + SPACE_PANE_HOLD] = hold;
        if (space_trial(setup, WORDS, counts, SPACE_COUNT_WORDS * PANES) != 0)
            return 1;
        printf("hold %" PRIu32, hold);
        print_counts("measures", counts);
        print_counts("reports", counts + SPACE_COUNT_WORDS);
        printf("\n");
    }
    setup[SPACE_TRIAL_ROUNDS] = SPACE_TRIAL_MAX_ROUNDS + 1;
    uint32_t number = space_trial_number(space_trial(setup, WORDS, counts, SPACE_COUNT_WORDS * PANES));
    printf("refused with %" PRIu32 ": %s\n", number, space_refusal_meaning(number));
    return 0;
}
