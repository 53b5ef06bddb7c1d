/* A host that keeps a space of its own and lives on space_step: panes send frames one at a time, and each record goes
 * to the pane that it is for.
 *     cc -I host -o panes host/panes.c crates/space/out/libspace.a */
#include "print_record.h"

enum { MARK = 1, FINDING = 2, ROUNDS = 8 };

struct pane {
    const char *name;
    uint8_t party;
    void (*turn)(struct pane *); /* what it does in a round in which it does not wait */
    int waits;                   /* its look-up waits: until the closing record comes, its frames get 6 */
    uint32_t transaction;        /* its own, or 0 */
    struct space_record last;    /* the latest record that it got */
};

static void count_new(struct pane *pane);
static void set_marks(struct pane *pane);
static void report(struct pane *pane);
static void show_findings(struct pane *pane);
static void stumble(struct pane *pane);

static struct pane panes[] = {
    {.name = "thumbs", .party = 5, .turn = count_new},
    {.name = "marks", .party = 1, .turn = set_marks},
    {.name = "report", .party = 2, .turn = report},
    {.name = "strip", .party = 3, .turn = show_findings},
    {.name = "trial", .party = 4, .turn = stumble},
};
enum { PANES = sizeof panes / sizeof panes[0] };

static uint32_t space[SPACE_WORDS];
static int round_number;

static struct pane *pane_of(uint8_t party)
{
    for (int i = 0; i < PANES; i++)
        if (panes[i].party == party)
            return &panes[i];
    return NULL;
}

/* What a pane learns from a record. */
static void receive(struct pane *pane, struct space_record record)
{
    printf("    to %s: ", pane->name);
    print_record(record);
    if (record.kind == SPACE_RECORD_RUNG) /* answers no frame of the pane, whose look-up may wait on */
        return;
    pane->last = record;
    switch (record.kind) {
    case SPACE_RECORD_WAITING: pane->waits = 1; break;
    case SPACE_RECORD_CREATED: pane->transaction = record.transaction; break;
    case SPACE_RECORD_COMMITTED: case SPACE_RECORD_ABORTED: pane->transaction = 0; break;
    case SPACE_RECORD_EXCEPTION: /* also closes a look-up that waits inside the transaction */
        pane->transaction = 0;
        pane->waits = 0;
        break;
    case SPACE_RECORD_FOUND: case SPACE_RECORD_NOTHING: pane->waits = 0; break;
    case SPACE_RECORD_REFUSED:
        if (record.refusal == SPACE_REFUSAL_NOT_LIVE)
            pane->transaction = 0;
        break;
    default: break;
    }
}

/* Hands a frame to the space and delivers the records. The first is the frame's own and goes to its sender, or stays
 * with the host for a tick: a refused record repeats byte 1 of the frame, which may be no party at all. Each later
 * one goes to the party that it names. */
static void send(struct pane *sender, const uint8_t *frame, size_t length)
{
    uint8_t answers[SPACE_STEP_BYTES];
    uint64_t returned = space_step(space, frame, length, answers, sizeof answers);
    printf("  %s: %s\n", sender ? sender->name : "host", length ? space_operation_name(frame[0]) : "empty frame");
    for (uint32_t i = 0; i < space_step_records(returned); i++) {
        struct space_record record = space_record_at(answers, i);
        struct pane *to = i == 0 ? sender : pane_of(record.party);
        if (to)
            receive(to, record);
    }
}

/* Registers in every seventh round, for five ticks: bells tell it of all marks and findings, and it need not ask. */
static void count_new(struct pane *pane)
{
    uint8_t frame[SPACE_MAX_FRAME_BYTES];
    if (round_number % 7 == 1)
        send(pane, frame, space_frame_notify(frame, pane->party, 0, (uint32_t[4]){0}, 5));
}

/* Sets a mark in every seventh round, with a lease of three ticks, and renews it until it is refused: then somebody
 * holds it, or it is gone. The first has no place yet, the others lie at 2:30. */
static void set_marks(struct pane *pane)
{
    uint8_t frame[SPACE_MAX_FRAME_BYTES];
    const uint32_t fields[4] = {MARK, 1, 40 + (uint32_t)round_number, (uint32_t)place_of_time(2, 30)};
    uint8_t blanks = round_number == 1 ? SPACE_MASK_PLACE : 0;
    if (round_number % 7 == 1)
        send(pane, frame, space_frame_write_blanks(frame, pane->party, blanks, fields, 3, 0));
    else if (pane->last.kind == SPACE_RECORD_WRITTEN || pane->last.kind == SPACE_RECORD_RENEWED)
        send(pane, frame, space_frame_renew(frame, pane->party, pane->last.entry, 3));
}

/* Takes the oldest mark and writes a finding for it, with the same blanks, both in one transaction of four ticks. */
static void report(struct pane *pane)
{
    uint8_t frame[SPACE_MAX_FRAME_BYTES];
    const uint32_t mark[4] = {MARK, 0, 0, 0};
    uint32_t finding[4] = {FINDING, 0, 0, 0};
    size_t length;
    if (!pane->transaction) /* at first, and after a commit, an abort or an exception */
        length = space_frame_create(frame, pane->party, 4);
    else if (pane->last.kind == SPACE_RECORD_CREATED)
        length = space_frame_look_up(frame, SPACE_OP_TAKE, pane->party, SPACE_MASK_KIND, mark, 1, pane->transaction);
    else if (pane->last.kind == SPACE_RECORD_FOUND) {
        memcpy(finding + 1, pane->last.fields + 1, 3 * sizeof finding[0]);
        length = space_frame_write_blanks(frame, pane->party, pane->last.blanks, finding, SPACE_FOREVER,
                                          pane->transaction);
    } else if (pane->last.kind == SPACE_RECORD_WRITTEN)
        length = space_frame_commit(frame, pane->party, pane->transaction);
    else /* nothing: start over */
        length = space_frame_abort(frame, pane->party, pane->transaction);
    send(pane, frame, length);
}

/* Takes findings, the oldest first. */
static void show_findings(struct pane *pane)
{
    uint8_t frame[SPACE_MAX_FRAME_BYTES];
    const uint32_t finding[4] = {FINDING, 0, 0, 0};
    send(pane, frame,
         space_frame_look_up(frame, SPACE_OP_TAKE, pane->party, SPACE_MASK_KIND, finding, SPACE_FOREVER, 0));
}

/* Reads what lies on the clock face from this time on, for an hour. What is no time has no place: the arc is refused. */
static void read_hour(struct pane *pane, uint32_t hour, uint32_t minute)
{
    uint8_t frame[SPACE_MAX_FRAME_BYTES];
    const uint32_t fields[4] = {0, 0, 0, space_arc((uint32_t)place_of_time(hour, minute), 60)};
    send(pane, frame, space_frame_look_up(frame, SPACE_OP_READ, pane->party, SPACE_MASK_ARC, fields, 0, 0));
}

/* Under trial: a frame that names no party, an empty one, a look-up that waits longer than its transaction lives, a
 * time that there is not. */
static void stumble(struct pane *pane)
{
    uint8_t frame[SPACE_MAX_FRAME_BYTES];
    if (round_number == 1)
        send(pane, frame, space_frame_create(frame, 255, 2));
    if (round_number == 2)
        send(pane, frame, 0);
    if (round_number == 3)
        send(pane, frame, space_frame_create(frame, pane->party, 2));
    if (round_number == 4)
        send(pane, frame, space_frame_look_up(frame, SPACE_OP_READ, pane->party, SPACE_MASK_KIND, (uint32_t[4]){3},
                                              SPACE_FOREVER, pane->transaction));
    if (round_number == 7)
        read_hour(pane, 1, 60);
    if (round_number == 8)
        read_hour(pane, 2, 0);
}

int main(void)
{
    if (space_version() != SPACE_VERSION) {
        fprintf(stderr, "panes: the header has version %d, the archive %" PRIu32 "\n", SPACE_VERSION, space_version());
        return 1;
    }
    uint8_t tick[SPACE_MAX_FRAME_BYTES];
    space_empty(space);
    for (round_number = 1; round_number <= ROUNDS; round_number++) {
        printf("round %d, clock %" PRIu32 "\n", round_number, space[SPACE_WORD_CLOCK]);
        for (int i = 0; i < PANES; i++)
            if (!panes[i].waits)
                panes[i].turn(&panes[i]);
        send(NULL, tick, space_frame_tick(tick));
    }
    printf("at the end: %" PRIu32 " stored, %" PRIu32 " live, %" PRIu32 " waiting, %" PRIu32 " registered\n",
           space[SPACE_WORD_ENTRY_COUNT], space[SPACE_WORD_TRANSACTION_COUNT], space[SPACE_WORD_WAITING_COUNT],
           space[SPACE_WORD_REGISTRATION_COUNT]);
    return 0;
}
