/* Tries names on a panel: prints where its readouts are, and where they would go. */
#include "palgwern.h"
#include <inttypes.h>
#include <stdio.h>
#include <string.h>

#define TRACK "track\tc\tauto\t00000000\tauto\t00000000\n"
#define NO_END "\tauto\t-\t0"

/* A level over two columns, a reading between two lines named `value`, of which there is one, and two cells. */
static const char sheet[] = "area\tlevel\t1\t2\t1\t3\n"
                            "name\tc\tvalue\n" TRACK TRACK TRACK
                            "place\tc\tnamed\tlevel\t0\tnamed\tlevel\t0\n"
                            "place\tc\tnamed\tvalue\t1\tnamed\tvalue\t2\n"
                            "cell\tnamed\tvalue\t-1" NO_END NO_END NO_END "\n"
                            "cell" NO_END NO_END NO_END NO_END "\n";

static const char *const ends[] = {"auto", "line", "", "span"};

/* Large: not on the stack. */
static palgwern_tables tables;
static int32_t numbers[PALGWERN_PLACEMENT_RUN];
static uint64_t lands[PALGWERN_CELLS];

/* The placements of `place` lines, whose axis is below that of a cell's half, and where the cells land. */
static void print_readouts(uint64_t placements, uint32_t cells) {
    for (const int32_t *n = numbers; n < numbers + PALGWERN_PLACEMENT_NUMBERS * placements; n += PALGWERN_PLACEMENT_NUMBERS)
        if (n[1] <= PALGWERN_ROWS)
            printf("place\t%c\t%s\t%" PRId32 "\t%s\t%" PRId32 "\n", "cr"[n[1]], ends[n[2]], n[3], ends[n[4]], n[5]);
    for (const uint64_t *w = lands; w < lands + cells; w++)
        printf("cell\t%" PRIu32 "\t%" PRIu32 "\t%" PRIu32 "\t%" PRIu32 "\n", palgwern_land_column_start(*w), palgwern_land_column_end(*w),
            palgwern_land_row_start(*w), palgwern_land_row_end(*w));
}

/* The readouts as they are. */
static void print_panel(palgwern_panel panel) {
    palgwern_count_answer placements = palgwern_tables_placements(&tables, panel.grid, 0, numbers);
    palgwern_cells_answer cells = palgwern_tables_cells(&tables, panel.grid, PALGWERN_SPARSE, lands);
    print_readouts(placements.count, cells.count);
}

/* The readouts as they would be. */
static void print_trial(palgwern_panel panel, uint32_t line, const char *name) {
    palgwern_trial trial = {PALGWERN_COLUMNS, line, PALGWERN_SPARSE};
    palgwern_trial_answer tried = palgwern_tables_try(&tables, panel, trial, name, strlen(name), numbers, lands);
    printf("with %s on line %" PRIu32 "\n", name, line);
    if (tried.number != 0)
        printf("refused\t%" PRIu32 "\t%" PRIu32 "\n", tried.number, tried.line);
    else
        print_readouts(tried.placements, tried.cells);
}

int main(void) {
    palgwern_panel panel = palgwern_tables_read(&tables, sheet, strlen(sheet)).panel;
    puts("before");
    print_panel(panel);
    print_trial(panel, 3, "value");
    print_trial(panel, 2, "level-end");
    print_trial(panel, 4, "value");
    puts("after, the same");
    print_panel(panel);
    return 0;
}
