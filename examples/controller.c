/*
 * Plans the sheet file that it is given by name, on peak, with accelerators of limit 1,000,000, room for 512 ideals and 4,096 cells.
 * It prints the page of the split, or 'refused' and the number of the refusal, as the program splitpage does; and on its standard error
 * the rating and the stages, or the refusal with its values, as the program sheetinfo does.
 */
#include "controller.h"

#include <inttypes.h>
#include <stdio.h>

enum {
    LIMIT = 1000000,
    MOST_IDEALS = 512,
    MOST_CELLS = 4096,
    /* no sheet file is longer, and a byte more shows that this one is */
    MOST_FILE = 5078,
    MOST_PAGE = 3130
};

static struct planner_peak planner;
static uint64_t ideals[MOST_IDEALS];
static uint32_t ratings[MOST_CELLS];
static struct planner_choice choices[MOST_CELLS];
static uint8_t file[MOST_FILE + 1];
static uint8_t page[MOST_PAGE];

/* Prints a refusal, and answers whether there is one. */
static int refused(struct planner_refusal refusal)
{
    if (refusal.number == 0)
        return 0;
    printf("refused %u\n", refusal.number);
    fprintf(stderr, "refused %u", refusal.number);
    if (refusal.number == 13)
        fprintf(stderr, " %zu", refusal.entry);
    if (refusal.number == 14)
        fprintf(stderr, " %u %zu %u", refusal.section, refusal.entry, refusal.reason);
    fprintf(stderr, "\n");
    return 1;
}

/* Prints the rating, and of each stage its kind and its operators. */
static void show_stages(struct planner_peak_plan plan)
{
    fprintf(stderr, "least peak %" PRIu32 ":", plan.rating);
    if (plan.stages == 0)
        fprintf(stderr, " no stages");
    for (size_t i = 0; i < plan.stages; i++) {
        struct planner_stage stage = planner_peak_stage(&planner, i);
        fprintf(stderr, "%s %c", i == 0 ? "" : ";", stage.kind == 1 ? 'A' : 'B');
        for (unsigned v = 0; v < 64; v++)
            if (stage.mask >> v & 1)
                fprintf(stderr, " %u", v);
    }
    fprintf(stderr, "\n");
}

/* Plans the sheet of the file's first bytes and prints what comes of it. */
static void show(size_t length)
{
    if (refused(planner_peak_new(&planner, LIMIT)) || refused(planner_peak_load(&planner, file, length)))
        return;
    struct planner_peak_plan plan = planner_peak_plan(&planner, ideals, MOST_IDEALS, ratings, MOST_CELLS, choices, MOST_CELLS);
    if (refused(plan.refusal))
        return;
    show_stages(plan);
    struct planner_number written = planner_peak_page(&planner, page, sizeof page);
    if (!refused(written.refusal))
        fwrite(page, 1, written.value, stdout);
}

int main(int count, char **words)
{
    FILE *stream = count == 2 ? fopen(words[1], "rb") : NULL;
    if (stream == NULL) {
        fprintf(stderr, "usage: controller SHEET_FILE\n");
        return 2;
    }
    size_t length = fread(file, 1, sizeof file, stream);
    int failed = ferror(stream);
    fclose(stream);
    if (failed) {
        fprintf(stderr, "%s cannot be read\n", words[1]);
        return 1;
    }
    show(length);
    return 0;
}
