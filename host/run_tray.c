/* Does what the program `viewer` does, through the C boundary: reads a tray from standard input, runs it, prints. */
#include "lines.h"

static uint8_t tray[SPACE_MAX_TRAY_BYTES + 1];
static uint8_t answers[65536];

int main(void)
{
    /* One byte more than a tray may have: a longer input is then refused with 15, whatever follows. */
    size_t length = fread(tray, 1, sizeof tray, stdin);
    print_lines(answers, space_run_tray(tray, length, answers, sizeof answers));
    return 0;
}
