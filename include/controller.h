/*
 * A split planner for a controller: the calls of the planner, over memory that the caller lends.
 *
 * A planner holds a sheet (a network of operators with figures and edges, and how many devices of two kinds there are) and, once it has
 * planned, the least split of that sheet, until the sheet is changed. Kind 1 is an accelerator with a limit, kind 2 a processor.
 * docs/HANDBOOK.md says how to use it, docs/RULES.md what is meant by each word, docs/REFUSALS.md what each refusal tells.
 *
 * Of every call:
 *   - It tests all that it is handed, and is refused with a number where something is wrong. A refused call changes nothing, but for the
 *     tables as `plan` says. In its answer everything but the refusal is then 0.
 *   - A pointer is never NULL, also where the length beside it is 0. A length is that of the memory that its pointer leads to, counted in
 *     elements. The memory that one call is lent does not overlap.
 *   - Nothing allocates, and nothing is kept of what a call is lent but the planner itself.
 *   - A planner is used by one thread at a time.
 */
#ifndef CONTROLLER_H
#define CONTROLLER_H

#include <stddef.h>
#include <stdint.h>

#ifdef __cplusplus
extern "C" {
#endif

/*
 * A planner on the scale peak (the slowest stage), line (all ticks) or pair (ticks and then link of the largest stage). Its bytes say nothing
 * to the caller, who never writes them: they are all 0, as those of a static are, until the `new` of its scale makes them a planner, and from
 * then on only the library makes them. All 0, they are a planner too: without operators, with accelerators of the limit 0. They may be moved
 * and copied whole.
 */
struct planner_peak {
    uint64_t opaque[230];
};

struct planner_line {
    uint64_t opaque[230];
};

struct planner_pair {
    uint64_t opaque[230];
};

/*
 * Why a call is refused: the number of docs/REFUSALS.md, 0 where it is granted, and its values.
 * 13 has the value `entry`; 14 has `section`, `entry` and `reason`; every other value is 0.
 */
struct planner_refusal {
    size_t entry;
    uint8_t number;
    uint8_t section;
    uint8_t reason;
};

/* A number that a call answers. */
struct planner_number {
    struct planner_refusal refusal;
    size_t value;
};

/* A rating on the scale pair. */
struct planner_ticks_and_link {
    uint32_t ticks;
    uint32_t link;
};

/* What is answered of a split: how many stages it has, how many ideals the sheet has, and its rating, on each scale. */
struct planner_peak_plan {
    struct planner_refusal refusal;
    size_t stages;
    size_t ideals;
    uint32_t rating;
};

struct planner_line_plan {
    struct planner_refusal refusal;
    size_t stages;
    size_t ideals;
    uint64_t rating;
};

struct planner_pair_plan {
    struct planner_refusal refusal;
    size_t stages;
    size_t ideals;
    struct planner_ticks_and_link rating;
};

/* The rating of a split, on each scale. */
struct planner_peak_rating {
    struct planner_refusal refusal;
    uint32_t rating;
};

struct planner_line_rating {
    struct planner_refusal refusal;
    uint64_t rating;
};

struct planner_pair_rating {
    struct planner_refusal refusal;
    struct planner_ticks_and_link rating;
};

/* A stage: the set of its operators (bit v stands for operator v), how many they are, and its kind, 1 or 2. */
struct planner_stage {
    struct planner_refusal refusal;
    uint64_t mask;
    uint32_t operators;
    uint8_t kind;
};

/* The ticks by which a pick time exceeds the pace; below 0 where the split is too slow. */
struct planner_margin {
    struct planner_refusal refusal;
    int64_t ticks;
};

/* A cell of the table of choices: the index of the ideal before the last stage, and that stage's kind. */
struct planner_choice {
    uint32_t ideal;
    uint8_t kind;
};

/*
 * The calls on the scale peak.
 */

/* Makes a planner without operators, edges, devices and a split, whose accelerators take stages up to a size of `limit`. Refused with 1. */
struct planner_refusal planner_peak_new(struct planner_peak *planner, uint32_t limit);

/* The next six change the sheet. A granted one takes away the split that stands. */

/* Appends an operator and answers its number. Refused with 2, 1. */
struct planner_number planner_peak_add(struct planner_peak *planner, uint32_t acc, uint32_t cpu, uint32_t size, uint32_t link);

/* Adds an edge from one operator to another. Refused with 3, 4, 5. */
struct planner_refusal planner_peak_join(struct planner_peak *planner, size_t from, size_t to);

/* Gives operator `number` other figures. Refused with 3, 1. */
struct planner_refusal planner_peak_retime(struct planner_peak *planner, size_t number, uint32_t acc, uint32_t cpu, uint32_t size, uint32_t link);

/* Sets how many accelerators and how many processors there are. Refused with 6. */
struct planner_refusal planner_peak_count(struct planner_peak *planner, uint8_t k, uint8_t l);

/* Replaces the sheet by that of a sheet file. Refused with 12, 13, 14. */
struct planner_refusal planner_peak_load(struct planner_peak *planner, const uint8_t *file, size_t length);

/* Makes the planner as new; the limit of its accelerators stays. Never refused. */
void planner_peak_clear(struct planner_peak *planner);

/*
 * Finds a least split of the sheet and sets it up. Refused with 7, 8, 9; then the split that stood still stands. By 7 the table of ideals
 * holds the first ideals, by 8 all of them, and by 9 all three tables are filled, as they are where the call is granted.
 */
struct planner_peak_plan planner_peak_plan(struct planner_peak *planner,
                                           uint64_t *ideals, size_t ideals_length,
                                           uint32_t *ratings, size_t ratings_length,
                                           struct planner_choice *choices, size_t choices_length);

/* The others only read. They leave the planner as it is; yet no other call may use it meanwhile. */

/* A stage of the split; stages count from 0. Refused with 10, 11. */
struct planner_stage planner_peak_stage(struct planner_peak *planner, size_t number);

/* The number of the stage that holds an operator. Refused with 10, 3. */
struct planner_number planner_peak_place(struct planner_peak *planner, size_t number);

/* The rating of the split. Refused with 10. */
struct planner_peak_rating planner_peak_rating(struct planner_peak *planner);

/* The pick time less the pace of the split. Refused with 10, 1. */
struct planner_margin planner_peak_margin(struct planner_peak *planner, uint32_t pick);

/* Writes the page of the split to the front of the buffer and answers its length; no 0 byte ends it. Refused with 10, 15. */
struct planner_number planner_peak_page(struct planner_peak *planner, uint8_t *buffer, size_t length);

/* Writes the sheet's file to the front of the buffer and answers its length, 5,078 at most. Refused with 15. */
struct planner_number planner_peak_write(struct planner_peak *planner, uint8_t *buffer, size_t length);

/*
 * The same calls on the scale line.
 */

struct planner_refusal planner_line_new(struct planner_line *planner, uint32_t limit);
struct planner_number planner_line_add(struct planner_line *planner, uint32_t acc, uint32_t cpu, uint32_t size, uint32_t link);
struct planner_refusal planner_line_join(struct planner_line *planner, size_t from, size_t to);
struct planner_refusal planner_line_retime(struct planner_line *planner, size_t number, uint32_t acc, uint32_t cpu, uint32_t size, uint32_t link);
struct planner_refusal planner_line_count(struct planner_line *planner, uint8_t k, uint8_t l);
struct planner_refusal planner_line_load(struct planner_line *planner, const uint8_t *file, size_t length);
void planner_line_clear(struct planner_line *planner);
struct planner_line_plan planner_line_plan(struct planner_line *planner,
                                           uint64_t *ideals, size_t ideals_length,
                                           uint64_t *ratings, size_t ratings_length,
                                           struct planner_choice *choices, size_t choices_length);
struct planner_stage planner_line_stage(struct planner_line *planner, size_t number);
struct planner_number planner_line_place(struct planner_line *planner, size_t number);
struct planner_line_rating planner_line_rating(struct planner_line *planner);
struct planner_margin planner_line_margin(struct planner_line *planner, uint32_t pick);
struct planner_number planner_line_page(struct planner_line *planner, uint8_t *buffer, size_t length);
struct planner_number planner_line_write(struct planner_line *planner, uint8_t *buffer, size_t length);

/*
 * The same calls on the scale pair.
 */

struct planner_refusal planner_pair_new(struct planner_pair *planner, uint32_t limit);
struct planner_number planner_pair_add(struct planner_pair *planner, uint32_t acc, uint32_t cpu, uint32_t size, uint32_t link);
struct planner_refusal planner_pair_join(struct planner_pair *planner, size_t from, size_t to);
struct planner_refusal planner_pair_retime(struct planner_pair *planner, size_t number, uint32_t acc, uint32_t cpu, uint32_t size, uint32_t link);
struct planner_refusal planner_pair_count(struct planner_pair *planner, uint8_t k, uint8_t l);
struct planner_refusal planner_pair_load(struct planner_pair *planner, const uint8_t *file, size_t length);
void planner_pair_clear(struct planner_pair *planner);
struct planner_pair_plan planner_pair_plan(struct planner_pair *planner,
                                           uint64_t *ideals, size_t ideals_length,
                                           struct planner_ticks_and_link *ratings, size_t ratings_length,
                                           struct planner_choice *choices, size_t choices_length);
struct planner_stage planner_pair_stage(struct planner_pair *planner, size_t number);
struct planner_number planner_pair_place(struct planner_pair *planner, size_t number);
struct planner_pair_rating planner_pair_rating(struct planner_pair *planner);
struct planner_margin planner_pair_margin(struct planner_pair *planner, uint32_t pick);
struct planner_number planner_pair_page(struct planner_pair *planner, uint8_t *buffer, size_t length);
struct planner_number planner_pair_write(struct planner_pair *planner, uint8_t *buffer, size_t length);

#ifdef __cplusplus
}
#endif

#endif
