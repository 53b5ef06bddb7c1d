/* The lines that the program prints, from an answers area and what space_run_tray returned. */
#ifndef LINES_H
#define LINES_H

#include <inttypes.h>
#include <stdio.h>
#include "space.h"

static inline void print_lines(const uint8_t *answers, uint64_t returned)
{
    for (uint32_t i = 0; i < space_run_records(returned); i++) {
        const uint8_t *record = answers + SPACE_RECORD_BYTES * i;
        printf("%u %u %u", record[0], record[1], record[2]);
        for (int at = SPACE_RECORD_AT_TRANSACTION; at < SPACE_RECORD_BYTES; at += 4)
            printf(" %" PRIu32, space_get_word(record + at));
        printf("\n");
    }
    printf("done %" PRIu32 " %" PRIu32 " %" PRIu32 "\n", space_run_frames(returned), space_run_records(returned),
           space_run_number(returned));
}

#endif
