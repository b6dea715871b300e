/* Checks and runs a frame through the C header: reads it from standard input, writes it to standard output. */

#include "formed_sheet.h"
#include <stdio.h>

static uint8_t frame[1 << 16];

int main(void) {
    size_t length = fread(frame, 1, sizeof frame, stdin);
    struct formed_sheet_answer tested = check(frame, length);
    struct formed_sheet_answer answer = run(frame, length);
    if (tested.number != answer.number || tested.place != answer.place) {
        return 3;
    }
    if (answer.number != FORMED_SHEET_ACCEPTED) {
        printf("refused %u at %llu\n", (unsigned)answer.number, (unsigned long long)answer.place);
        return 1;
    }
    return fwrite(frame, 1, length, stdout) == length ? 0 : 2;
}
