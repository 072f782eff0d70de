/* Checks the model file on standard input with the library, and prints the status, the steps and the records.
 *
 *     tools/c_library
 *     cc -I include examples/check.c target/staticlib/libfukhtsege.a -o check && ./check < examples/lampdoor.model
 */
#include "fukhtsege.h"
#include <stdio.h>

static const char *const status[] = {"refused", "unknown", "violation", "incomplete", "no_violation_in_trace"};

static uint8_t file[32769]; /* a byte more than a model file may have: a longer one is refused with 30 */
static uint32_t queue[FUKHTSEGE_QUEUE_ENOUGH * FUKHTSEGE_QUEUE_ENTRY];
static uint32_t records[FUKHTSEGE_RECORDS_ENOUGH * FUKHTSEGE_RECORD_ENTRY];
static uint32_t runs[FUKHTSEGE_RUNS_ENOUGH * FUKHTSEGE_RUN_ENTRY];
static uint64_t answer[FUKHTSEGE_CHECK_NUMBERS];

int main(void)
{
    size_t length = fread(file, 1, sizeof file, stdin);
    uint32_t refused = fukhtsege_check(file, length, queue, sizeof queue / sizeof *queue, records,
                                       sizeof records / sizeof *records, runs, sizeof runs / sizeof *runs, answer,
                                       sizeof answer / sizeof *answer);
    if (refused != 0) {
        printf("refused %u\n", (unsigned)refused);
        return 1;
    }
    printf("status %s\n", status[answer[0]]);
    printf("steps %llu\n", (unsigned long long)answer[FUKHTSEGE_CHECK_SIMULATION]);
    printf("records %llu\n", (unsigned long long)answer[FUKHTSEGE_CHECK_SIMULATION + 1]);
    return 0;
}
