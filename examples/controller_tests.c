/*
 * Makes every call of controller.h, at both sides of each length that crosses, and ends with the line of the first thing that is not as
 * docs/EXAMPLES.md and docs/REFUSALS.md have it.
 */
#include "controller.h"

#include <stdio.h>
#include <stdlib.h>
#include <string.h>

#define CHECK(fact) \
    do { \
        if (!(fact)) { \
            fprintf(stderr, "%s:%d: not so: %s\n", __FILE__, __LINE__, #fact); \
            exit(1); \
        } \
    } while (0)

enum { IDEALS = 6, CELLS = 18, MARK = 0xa5 };

/* A planner between bytes that no call may write. */
static struct {
    uint8_t before[64];
    struct planner_peak planner;
    uint8_t after[64];
} memory;

static struct planner_peak *const planner = &memory.planner;
static uint64_t ideals[IDEALS + 1];
static uint32_t ratings[CELLS + 1];
static struct planner_choice choices[CELLS + 1];
static uint8_t buffer[256];

static int all_are(const void *bytes, size_t length, uint8_t byte)
{
    const uint8_t *at = bytes;
    for (size_t i = 0; i < length; i++)
        if (at[i] != byte)
            return 0;
    return 1;
}

static int is(struct planner_refusal refusal, uint8_t number)
{
    return refusal.number == number && refusal.entry == 0 && refusal.section == 0 && refusal.reason == 0;
}

static int is_wrong_body(struct planner_refusal refusal, uint8_t section, size_t entry, uint8_t reason)
{
    return refusal.number == 14 && refusal.section == section && refusal.entry == entry && refusal.reason == reason;
}

static struct planner_peak_plan plan_with(size_t most_ideals, size_t most_ratings, size_t most_choices)
{
    memset(ideals, MARK, sizeof ideals);
    memset(ratings, MARK, sizeof ratings);
    memset(choices, MARK, sizeof choices);
    return planner_peak_plan(planner, ideals, most_ideals, ratings, most_ratings, choices, most_choices);
}

/* The diamond of docs/EXAMPLES.md. */
static void draw_diamond(uint8_t k, uint8_t l)
{
    static const uint32_t figures[4][4] = {{2, 6, 1, 1}, {4, 8, 2, 1}, {3, 9, 2, 1}, {2, 5, 1, 1}};
    static const size_t edges[4][2] = {{0, 1}, {0, 2}, {1, 3}, {2, 3}};
    planner_peak_clear(planner);
    for (size_t v = 0; v < 4; v++) {
        struct planner_number added = planner_peak_add(planner, figures[v][0], figures[v][1], figures[v][2], figures[v][3]);
        CHECK(is(added.refusal, 0) && added.value == v);
    }
    for (size_t i = 0; i < 4; i++)
        CHECK(is(planner_peak_join(planner, edges[i][0], edges[i][1]), 0));
    CHECK(is(planner_peak_count(planner, k, l), 0));
}

static void new_tests_the_limit(void)
{
    CHECK(is(planner_peak_new(planner, 1000000001), 1));
    CHECK(is(planner_peak_new(planner, 1000000000), 0));
    CHECK(is(planner_peak_new(planner, 4), 0));
}

/* Memory that is all 0: no operator, and accelerators of the limit 0. */
static void zeros_are_a_planner(void)
{
    static struct planner_peak zeros;
    struct planner_peak_plan plan = planner_peak_plan(&zeros, ideals, 1, ratings, 1, choices, 1);
    CHECK(is(plan.refusal, 0) && plan.stages == 0 && plan.ideals == 1 && plan.rating == 0);
    CHECK(planner_peak_add(&zeros, 3, 9, 0, 2).value == 0);
    CHECK(is(planner_peak_count(&zeros, 1, 0), 0));
    plan = planner_peak_plan(&zeros, ideals, 2, ratings, 4, choices, 4);
    CHECK(is(plan.refusal, 0) && plan.stages == 1 && plan.rating == 3);
    CHECK(is(planner_peak_retime(&zeros, 0, 3, 9, 1, 2), 0));
    CHECK(is(planner_peak_plan(&zeros, ideals, 2, ratings, 4, choices, 4).refusal, 9));
}

static void edits_are_refused(void)
{
    draw_diamond(2, 0);
    CHECK(is(planner_peak_add(planner, 1000001, 0, 0, 0).refusal, 1));
    CHECK(planner_peak_add(planner, 0, 0, 0, 1000001).value == 0);
    CHECK(is(planner_peak_join(planner, 0, 4), 3));
    CHECK(is(planner_peak_join(planner, (size_t)-1, 0), 3));
    CHECK(is(planner_peak_join(planner, 1, 1), 4));
    CHECK(is(planner_peak_join(planner, 0, 1), 5));
    CHECK(is(planner_peak_retime(planner, 4, 0, 0, 0, 0), 3));
    CHECK(is(planner_peak_retime(planner, 3, 0, 0, 1000001, 0), 1));
    CHECK(is(planner_peak_count(planner, 9, 0), 6));
    CHECK(is(planner_peak_count(planner, 0, 9), 6));
    for (size_t v = 4; v < 64; v++)
        CHECK(planner_peak_add(planner, 1, 1, 1, 1).value == v);
    CHECK(is(planner_peak_add(planner, 1, 1, 1, 1).refusal, 2));
}

static void nothing_stands(void)
{
    draw_diamond(2, 0);
    CHECK(is(planner_peak_rating(planner).refusal, 10) && planner_peak_rating(planner).rating == 0);
    CHECK(is(planner_peak_stage(planner, 0).refusal, 10) && planner_peak_stage(planner, 0).mask == 0);
    CHECK(is(planner_peak_place(planner, 0).refusal, 10));
    CHECK(is(planner_peak_margin(planner, 0).refusal, 10));
    CHECK(is(planner_peak_page(planner, buffer, sizeof buffer).refusal, 10));
}

static void plan_takes_each_length(void)
{
    draw_diamond(2, 0);
    CHECK(is(plan_with(0, 0, 0).refusal, 7) && all_are(ideals, sizeof ideals, MARK));
    CHECK(is(plan_with(IDEALS - 1, CELLS, CELLS).refusal, 7));
    CHECK(ideals[4] == 7 && all_are(&ideals[5], 2 * sizeof ideals[0], MARK) && all_are(ratings, sizeof ratings, MARK));
    CHECK(is(plan_with(IDEALS, CELLS - 1, CELLS).refusal, 8));
    CHECK(ideals[5] == 15 && ideals[6] == 0xa5a5a5a5a5a5a5a5 && all_are(choices, sizeof choices, MARK));
    CHECK(is(plan_with(IDEALS, CELLS, CELLS - 1).refusal, 8));
    CHECK(is(planner_peak_rating(planner).refusal, 10));

    struct planner_peak_plan plan = plan_with(IDEALS, CELLS, CELLS);
    CHECK(is(plan.refusal, 0) && plan.rating == 8 && plan.stages == 2 && plan.ideals == IDEALS);
    CHECK(ratings[CELLS - 1] == 8 && choices[CELLS - 1].ideal == 2 && choices[CELLS - 1].kind == 1);
    CHECK(ratings[CELLS] == 0xa5a5a5a5 && choices[CELLS].ideal == 0xa5a5a5a5 && choices[CELLS].kind == MARK);

    CHECK(is(planner_peak_count(planner, 0, 0), 0));
    CHECK(is(plan_with(IDEALS, CELLS, CELLS).refusal, 9));
}

static void the_split_is_read(void)
{
    draw_diamond(2, 0);
    CHECK(plan_with(IDEALS, CELLS, CELLS).stages == 2);
    CHECK(planner_peak_rating(planner).rating == 8);
    struct planner_stage stage = planner_peak_stage(planner, 1);
    CHECK(is(stage.refusal, 0) && stage.kind == 1 && stage.mask == 12 && stage.operators == 2);
    CHECK(is(planner_peak_stage(planner, 2).refusal, 11));
    CHECK(planner_peak_place(planner, 1).value == 0 && planner_peak_place(planner, 2).value == 1);
    CHECK(is(planner_peak_place(planner, 4).refusal, 3));
    CHECK(planner_peak_margin(planner, 10).ticks == 2 && planner_peak_margin(planner, 0).ticks == -8);
    CHECK(is(planner_peak_margin(planner, 1000000001).refusal, 1) && is(planner_peak_margin(planner, 1000000000).refusal, 0));
    /* what is refused leaves it, what is granted takes it away */
    CHECK(is(planner_peak_count(planner, 9, 0), 6) && is(planner_peak_rating(planner).refusal, 0));
    CHECK(is(planner_peak_retime(planner, 0, 2, 6, 1, 1), 0) && is(planner_peak_rating(planner).refusal, 10));
}

static void buffers_take_each_length(void)
{
    static const char text[] = "stages 2 pace 8\nA 0 1\nA 2 3\n";
    const size_t page = sizeof text - 1;
    const size_t file = 94;
    draw_diamond(2, 0);
    CHECK(plan_with(IDEALS, CELLS, CELLS).stages == 2);
    memset(buffer, MARK, sizeof buffer);
    CHECK(is(planner_peak_page(planner, buffer, 0).refusal, 15));
    CHECK(is(planner_peak_page(planner, buffer, page - 1).refusal, 15) && all_are(buffer, sizeof buffer, MARK));
    CHECK(planner_peak_page(planner, buffer, page).value == page);
    CHECK(memcmp(buffer, text, page) == 0 && all_are(buffer + page, sizeof buffer - page, MARK));

    memset(buffer, MARK, sizeof buffer);
    CHECK(is(planner_peak_write(planner, buffer, 0).refusal, 15));
    CHECK(is(planner_peak_write(planner, buffer, file - 1).refusal, 15) && all_are(buffer, sizeof buffer, MARK));
    CHECK(planner_peak_write(planner, buffer, file).value == file && all_are(buffer + file, sizeof buffer - file, MARK));
    CHECK(is(planner_peak_rating(planner).refusal, 0));

    /* the file that was written, whole, too short and too long, and with one byte that is wrong */
    CHECK(is(planner_peak_load(planner, buffer, file), 0) && is(planner_peak_rating(planner).refusal, 10));
    CHECK(plan_with(IDEALS, CELLS, CELLS).rating == 8);
    CHECK(is(planner_peak_load(planner, buffer, 0), 12) && is(planner_peak_load(planner, buffer, 19), 12));
    struct planner_refusal cut = planner_peak_load(planner, buffer, file - 1);
    CHECK(cut.number == 13 && cut.entry == 2 && cut.section == 0 && cut.reason == 0);
    CHECK(planner_peak_load(planner, buffer, file + 1).entry == 2);
    buffer[84] = 2;
    CHECK(is_wrong_body(planner_peak_load(planner, buffer, file), 2, 0, 4));
    CHECK(planner_peak_rating(planner).rating == 8);
}

/* Makes every call on another scale, and checks what the diamond's least split is there. */
#define CHECK_ON(scale, rating_type, is_least, most_stages, last_mask, pace, text) \
    static void the_calls_on_##scale(void) \
    { \
        static struct planner_##scale other; \
        static rating_type table[CELLS + 1]; \
        const size_t page = sizeof text - 1; \
        CHECK(is(planner_##scale##_new(&other, 1000000001), 1) && is(planner_##scale##_new(&other, 6), 0)); \
        CHECK(planner_##scale##_add(&other, 2, 6, 1, 1).value == 0 && planner_##scale##_add(&other, 4, 8, 2, 1).value == 1); \
        CHECK(planner_##scale##_add(&other, 3, 9, 2, 1).value == 2 && planner_##scale##_add(&other, 1, 1, 1, 1).value == 3); \
        CHECK(is(planner_##scale##_retime(&other, 3, 2, 5, 1, 1), 0) && is(planner_##scale##_retime(&other, 4, 2, 5, 1, 1), 3)); \
        CHECK(is(planner_##scale##_join(&other, 0, 1), 0) && is(planner_##scale##_join(&other, 0, 2), 0)); \
        CHECK(is(planner_##scale##_join(&other, 1, 3), 0) && is(planner_##scale##_join(&other, 2, 3), 0)); \
        CHECK(is(planner_##scale##_join(&other, 2, 3), 5)); \
        CHECK(is(planner_##scale##_count(&other, 9, 0), 6) && is(planner_##scale##_count(&other, 2, 0), 0)); \
        CHECK(is(planner_##scale##_plan(&other, ideals, 5, table, CELLS, choices, CELLS).refusal, 7)); \
        CHECK(is(planner_##scale##_plan(&other, ideals, IDEALS, table, CELLS - 1, choices, CELLS).refusal, 8)); \
        CHECK(is(planner_##scale##_rating(&other).refusal, 10)); \
        memset(table, MARK, sizeof table); \
        struct planner_##scale##_plan plan = planner_##scale##_plan(&other, ideals, IDEALS, table, CELLS, choices, CELLS); \
        CHECK(is(plan.refusal, 0) && is_least(plan.rating) && plan.stages == most_stages && plan.ideals == IDEALS); \
        CHECK(is_least(table[CELLS - 1]) && all_are(&table[CELLS], sizeof table[0], MARK)); \
        CHECK(is(planner_##scale##_rating(&other).refusal, 0) && is_least(planner_##scale##_rating(&other).rating)); \
        CHECK(planner_##scale##_stage(&other, most_stages - 1).mask == last_mask); \
        CHECK(is(planner_##scale##_stage(&other, most_stages).refusal, 11)); \
        CHECK(planner_##scale##_place(&other, 3).value == most_stages - 1 && is(planner_##scale##_place(&other, 4).refusal, 3)); \
        CHECK(planner_##scale##_margin(&other, 1).ticks == 1 - pace); \
        CHECK(is(planner_##scale##_page(&other, buffer, page - 1).refusal, 15)); \
        CHECK(planner_##scale##_page(&other, buffer, page).value == page && memcmp(buffer, text, page) == 0); \
        CHECK(is(planner_##scale##_write(&other, buffer, 93).refusal, 15) && planner_##scale##_write(&other, buffer, 94).value == 94); \
        planner_##scale##_clear(&other); \
        CHECK(is(planner_##scale##_rating(&other).refusal, 10) && planner_##scale##_write(&other, buffer + 94, 22).value == 22); \
        CHECK(is(planner_##scale##_load(&other, buffer, 19), 12) && is(planner_##scale##_load(&other, buffer, 94), 0)); \
        CHECK(is_least(planner_##scale##_plan(&other, ideals, IDEALS, table, CELLS, choices, CELLS).rating)); \
    }

#define IS_11(rating) ((rating) == 11)
#define IS_8_AND_2(rating) ((rating).ticks == 8 && (rating).link == 2)

CHECK_ON(line, uint64_t, IS_11, 1, 15, 11, "stages 1 pace 11\nA 0 1 2 3\n")
CHECK_ON(pair, struct planner_ticks_and_link, IS_8_AND_2, 2, 12, 8, "stages 2 pace 8\nA 0 1\nA 2 3\n")

int main(void)
{
    memset(memory.before, MARK, sizeof memory.before);
    memset(memory.after, MARK, sizeof memory.after);
    new_tests_the_limit();
    zeros_are_a_planner();
    edits_are_refused();
    nothing_stands();
    plan_takes_each_length();
    the_split_is_read();
    buffers_take_each_length();
    the_calls_on_line();
    the_calls_on_pair();
    CHECK(all_are(memory.before, sizeof memory.before, MARK) && all_are(memory.after, sizeof memory.after, MARK));
    return 0;
}
