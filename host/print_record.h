/* A record in words, for the example hosts. */
#ifndef PRINT_RECORD_H
#define PRINT_RECORD_H

#include <inttypes.h>
#include <stdio.h>
#include "space_frames.h"

/* "found in transaction 1, entry 1: kind 7, side 1, image 40, place 9", or "place blank";
 * "rung, registration 1: 2 more, 5 in all" */
static inline void print_record(struct space_record record)
{
    int is_bell = record.kind == SPACE_RECORD_NOTIFIED || record.kind == SPACE_RECORD_RUNG;
    const char *to_transaction = record.kind < SPACE_RECORD_CREATED     ? " in"
                                 : record.kind == SPACE_RECORD_EXCEPTION ? " of"
                                                                         : "";
    printf("%s", space_record_name(record.kind));
    if (record.kind == SPACE_RECORD_REFUSED)
        printf(" with %d: %s", record.refusal, space_refusal_meaning(record.refusal));
    if (record.transaction)
        printf("%s transaction %" PRIu32, to_transaction, record.transaction);
    if (record.entry)
        printf(", %s %" PRIu32, is_bell ? "registration" : "entry", record.entry);
    if (record.kind == SPACE_RECORD_RUNG)
        printf(": %" PRIu32 " more, %" PRIu32 " in all", record.fields[0], record.fields[1]);
    for (int i = 0; record.kind == SPACE_RECORD_FOUND && i < 4; i++) {
        printf("%s %s ", i ? "," : ":", space_field_name(i));
        if (record.blanks >> i & 1)
            printf("blank");
        else
            printf("%" PRIu32, record.fields[i]);
    }
    printf("\n");
}

#endif
