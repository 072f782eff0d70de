/* The home rule checker for C: libfukhtsege.a, made by `tools/c_library`.
 *
 * Every function returns 0, or the number of the refusal (README.md), or 47 if `answer` has fewer numbers than the function
 * writes; then nothing is worked on and no lent memory changes. No other condition is put on the caller but that each pointer
 * refers to as many elements as the length behind it says (it may be 0), is not null, and that no two areas overlap.
 *
 * A model file may hold windows of the day among its conditions and a start behind its automations (docs/FORMAT.md); 50 and 51
 * refuse bad windows. The functions take such files as all others.
 *
 * `queue`, `records`, `runs`, `findings` and `interactions` are the lent areas of docs/FORMAT.md, in 32-bit words; `output`
 * gets the model file with the events of a witness or of a reduction. What each holds afterwards is there too.
 *
 * The answer's numbers have 64 bits. After a refusal all that the function writes are zeros; numbers behind that stay as they
 * came. What the fields mean stands in docs/FORMAT.md under the same names. */
#ifndef FUKHTSEGE_H
#define FUKHTSEGE_H

#include <stddef.h>
#include <stdint.h>

/* 47: the answer is too short. */
#define FUKHTSEGE_SHORT_ANSWER 47

/* An area's entries, in words, and how many of them are never too few. */
#define FUKHTSEGE_QUEUE_ENTRY 5
#define FUKHTSEGE_RECORD_ENTRY 13
#define FUKHTSEGE_RUN_ENTRY 28
#define FUKHTSEGE_FINDING_ENTRY 14
#define FUKHTSEGE_INTERACTION_ENTRY 3
#define FUKHTSEGE_QUEUE_ENOUGH 20543
#define FUKHTSEGE_RECORDS_ENOUGH 10096
#define FUKHTSEGE_RUNS_ENOUGH 512
/* The output has room enough with so many bytes more than the file. */
#define FUKHTSEGE_OUTPUT_MORE 45

/* A reason is five numbers: kind, first, second, line, column. `first` and `second` are positions of texts in the file, or
 * FUKHTSEGE_ABSENT: the byte at a position is the text's length, and as many bytes behind it are the text. The reason reads:
 * first text, words of the kind, second text; FUKHTSEGE_SOURCE_NOTE has LINE:COLUMN in front. A text that the kind doesn't
 * have is absent, and line and column are 0 but for FUKHTSEGE_SOURCE_NOTE. Zeros stand behind a list's last reason. */
#define FUKHTSEGE_REASON_NUMBERS 5
#define FUKHTSEGE_ABSENT 4294967295u
/* The kinds: the texts that each has, and its words. */
#define FUKHTSEGE_NOTE 0                  /* first, the note: no words */
#define FUKHTSEGE_ID_NOTE 1               /* first, the automation, and second, the note: ": " */
#define FUKHTSEGE_SOURCE_NOTE 2           /* second, the note, and line and column: ": " */
#define FUKHTSEGE_TRIGGER_CONDITION 3     /* first, the automation: ": unknown trigger condition" */
#define FUKHTSEGE_TOGGLE 4                /* first, the automation: ": toggle of unknown state" */
#define FUKHTSEGE_CHOOSE_CONDITION 5      /* first, the automation: ": unknown choose condition" */
#define FUKHTSEGE_ACTION_CONDITION 6      /* first, the automation: ": unknown action condition" */
#define FUKHTSEGE_WAIT 7                  /* no text: "unsupported wait trigger" */
#define FUKHTSEGE_STATE_PREDICATE 8       /* first, the invariant: ": unknown state predicate" */
#define FUKHTSEGE_ACTION_GUARD 9          /* first, the invariant: ": unknown action guard" */
#define FUKHTSEGE_RESPONSE_AT_DEADLINE 10 /* first, the invariant: ": unknown response at deadline" */
#define FUKHTSEGE_TEMPORAL_PREDICATE 11   /* first, the invariant: ": unknown temporal predicate" */
#define FUKHTSEGE_BEYOND_HORIZON 12       /* first, the invariant: ": response deadline beyond horizon" */
#define FUKHTSEGE_SPACE_SPENT 13          /* no text: "trace or queue budget exhausted" */
#define FUKHTSEGE_STEPS_SPENT 14          /* no text: "step budget exhausted" */
#define FUKHTSEGE_RUNS_LEFT 15            /* no text: "active or queued runs beyond observation horizon" */
#define FUKHTSEGE_SEARCH_SPENT 16         /* no text: "search budget exhausted" */

/* unsupported: 0 count, 1 to 3 zeros; then the reasons, five numbers each */
#define FUKHTSEGE_UNSUPPORTED_REASONS 4
#define FUKHTSEGE_UNSUPPORTED_NUMBERS 1504

/* simulate: 0 steps, 1 records, 2 horizon, 3 unknown, 4 stop_reason, 5 runs_left (1 or 0), 6 and 7 zeros; then */
#define FUKHTSEGE_SIMULATE_VALUES 8
#define FUKHTSEGE_SIMULATE_REASONS 40
#define FUKHTSEGE_SIMULATE_NUMBERS 1540

/* check: 0 status, 1 violations, 2 unknown, 3 incomplete; then. Status: 0 refused, 1 unknown, 2 violation, 3 incomplete,
 * 4 no_violation_in_trace. From FUKHTSEGE_CHECK_SIMULATION on stand the numbers of simulate. */
#define FUKHTSEGE_CHECK_VIOLATED 4
#define FUKHTSEGE_CHECK_UNKNOWNS 260
#define FUKHTSEGE_CHECK_INCOMPLETES 2260
#define FUKHTSEGE_CHECK_SIMULATION 2460
#define FUKHTSEGE_CHECK_NUMBERS 4000

/* verify: 0 status, 1 cases, 2 total_steps, 3 depth, 4 horizon, 5 max_cases, 6 max_steps_per_case, 7 alphabet, 8 gaps,
 * 9 reasons, 10 shortest (1 or 0), 11 events, 12 written, 13 to 15 zeros; then. Status: 0 refused, 1 no_counterexample_within_bounds, 2 counterexample,
 * 3 inconclusive. From FUKHTSEGE_VERIFY_CHECK on stand the numbers of check. */
#define FUKHTSEGE_VERIFY_INPUTS 16
#define FUKHTSEGE_VERIFY_SECONDS 52
#define FUKHTSEGE_VERIFY_WORDS 56
#define FUKHTSEGE_VERIFY_TOLD 76
#define FUKHTSEGE_VERIFY_CHECK 2076
#define FUKHTSEGE_VERIFY_NUMBERS 6076

/* minimize: 0 invariant, 1 original_events, 2 attempts, 3 deletion_minimal (1 or 0), 4 events, 5 written, 6 and 7 zeros;
 * then. From FUKHTSEGE_MINIMIZE_CHECK on stand the numbers of check. */
#define FUKHTSEGE_MINIMIZE_WORDS 8
#define FUKHTSEGE_MINIMIZE_CHECK 408
#define FUKHTSEGE_MINIMIZE_NUMBERS 4408

/* lint: 0 findings, 1 interactions, 2 components, 3 undeclared; then */
#define FUKHTSEGE_LINT_CYCLES 4
#define FUKHTSEGE_LINT_READS 36
#define FUKHTSEGE_LINT_WRITES 68
#define FUKHTSEGE_LINT_NAMES 100
#define FUKHTSEGE_LINT_READERS 164
#define FUKHTSEGE_LINT_NUMBERS 228

/* cone: 0 entities, 1 automations, 2 undeclared, 3 zero; then */
#define FUKHTSEGE_CONE_NAMES 4
#define FUKHTSEGE_CONE_NUMBERS 68

#ifdef __cplusplus
extern "C" {
#endif

uint32_t fukhtsege_validate(const uint8_t *file, size_t file_len);

uint32_t fukhtsege_unsupported(const uint8_t *file, size_t file_len, uint64_t *answer, size_t answer_len);

uint32_t fukhtsege_simulate(const uint8_t *file, size_t file_len, uint32_t *queue, size_t queue_len, uint32_t *records,
                            size_t records_len, uint32_t *runs, size_t runs_len, uint64_t *answer, size_t answer_len);

uint32_t fukhtsege_check(const uint8_t *file, size_t file_len, uint32_t *queue, size_t queue_len, uint32_t *records,
                         size_t records_len, uint32_t *runs, size_t runs_len, uint64_t *answer, size_t answer_len);

uint32_t fukhtsege_verify(const uint8_t *file, size_t file_len, uint32_t *queue, size_t queue_len, uint32_t *records,
                          size_t records_len, uint32_t *runs, size_t runs_len, uint8_t *output, size_t output_len,
                          uint64_t *answer, size_t answer_len);

uint32_t fukhtsege_minimize(const uint8_t *file, size_t file_len, uint32_t *queue, size_t queue_len, uint32_t *records,
                            size_t records_len, uint32_t *runs, size_t runs_len, uint8_t *output, size_t output_len,
                            uint64_t *answer, size_t answer_len);

uint32_t fukhtsege_lint(const uint8_t *file, size_t file_len, uint32_t *findings, size_t findings_len,
                        uint32_t *interactions, size_t interactions_len, uint64_t *answer, size_t answer_len);

uint32_t fukhtsege_cone(const uint8_t *file, size_t file_len, uint64_t *answer, size_t answer_len);

#ifdef __cplusplus
}
#endif

#endif
