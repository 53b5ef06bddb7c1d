/* A host that asks for the order of a study export, in which transactions stand without it: it puts the words together,
 * asks, and carries the transactions out on a plain set of its own.
 *     cc -I host -o order host/order.c crates/space/out/libspace.a */
#include <inttypes.h>
#include <stdio.h>
#include "space_frames.h"

enum { MOST = SPACE_ORDER_MAX_TRANSACTIONS * SPACE_ORDER_MAX_ACTIONS };

struct action {
    enum space_order_kind kind;
    uint32_t number;
};

struct transaction {
    const char *what;
    uint32_t count;
    struct action actions[SPACE_ORDER_MAX_ACTIONS];
};

/* What became of image 40: who marked it, measured it, and reported on it. */
static const struct transaction export_of_study[] = {
    {"report", 3, {{SPACE_ORDER_TAKE, 2}, {SPACE_ORDER_READ, 1}, {SPACE_ORDER_WRITE, 4}}},
    {"measure again", 3, {{SPACE_ORDER_READ, 1}, {SPACE_ORDER_TAKE, 3}, {SPACE_ORDER_WRITE, 2}}},
    {"open the study", 1, {{SPACE_ORDER_WRITE, 1}}},
    {"measure", 2, {{SPACE_ORDER_READ, 1}, {SPACE_ORDER_WRITE, 3}}},
};
enum { COUNT = sizeof export_of_study / sizeof export_of_study[0] };

/* The export's words; returns how many. */
static size_t put_words(uint32_t words[SPACE_ORDER_MAX_WORDS], uint32_t count)
{
    size_t end = 0;
    words[end++] = count;
    for (uint32_t i = 0; i < count; i++) {
        words[end++] = export_of_study[i].count;
        for (uint32_t j = 0; j < export_of_study[i].count; j++) {
            words[end++] = export_of_study[i].actions[j].kind;
            words[end++] = export_of_study[i].actions[j].number;
        }
    }
    return end;
}

/* The set: numbers, as many as there are. */
static uint32_t set[MOST];
static size_t set_len;

static void carry_out(struct action action)
{
    size_t at = 0;
    while (at < set_len && set[at] != action.number)
        at++;
    if (action.kind == SPACE_ORDER_WRITE)
        set[set_len++] = action.number;
    else if (action.kind == SPACE_ORDER_TAKE && at < set_len)
        set[at] = set[--set_len];
}

static void run_transaction(uint8_t position)
{
    const struct transaction *transaction = &export_of_study[position];
    for (uint32_t i = 0; i < transaction->count; i++)
        carry_out(transaction->actions[i]);
    printf("%d %-16s then there are:", position, transaction->what);
    for (size_t i = 0; i < set_len; i++)
        printf(" %" PRIu32, set[i]);
    printf("\n");
}

/* The first so many transactions of the export. */
static uint64_t ask(uint32_t count, uint8_t order[SPACE_ORDER_MAX_TRANSACTIONS], size_t room)
{
    uint32_t words[SPACE_ORDER_MAX_WORDS];
    return space_find_order(words, put_words(words, count), order, room);
}

int main(void)
{
    uint8_t order[SPACE_ORDER_MAX_TRANSACTIONS];
    if (ask(COUNT, order, sizeof order) != 1)
        return 1;
    for (int i = 0; i < COUNT; i++)
        run_transaction(order[i]);
    if (ask(2, order, sizeof order) == 0) /* who opened the study is missing */
        printf("the first two alone: no order\n");
    uint32_t number = space_order_number(ask(COUNT, order, 2)); /* room for two positions */
    printf("refused with %" PRIu32 ": %s\n", number, space_refusal_meaning(number));
    return 0;
}
