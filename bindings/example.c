/* Reads document 01's worked case and prints its answer. */
#include "palgwern.h"
#include <inttypes.h>
#include <stdio.h>
#include <string.h>

static const char sheet[] = "axis\tc\t43480000\tmax\tlen\t00000000\n"
                            "repeat\tc\tfill\n"
                            "name\tc\tx\n"
                            "track\tc\tlen\t42c80000\tlen\t42c80000\n"
                            "end\tc\n"
                            "place\tc\tnamed\tx\t2\tauto\t-\t0\n";

static const char *const letters[] = {"c", "r"};
static const char *const sizes[] = {"len", "pct", "fr", "auto", "min", "max", "fitl", "fitp"};
static const char sources[] = "ntagp-";
static const char *const ends[] = {"auto", "line", "", "span"};

/* Large: not on the stack. */
static palgwern_tables tables;
static uint64_t records[PALGWERN_LARGEST_RECORDS * PALGWERN_RECORD_WORDS];

static void print_axis(palgwern_grid grid, uint32_t axis) {
    palgwern_size_answer size = palgwern_explicit_size(grid, axis);
    printf("size\t%s\t%" PRIu32 "\t%" PRIu32 "\n", letters[axis], size.repetitions, size.explicit_count);
    palgwern_count_answer count = palgwern_tables_records(&tables, grid, axis, 0, records, sizeof records / sizeof *records);
    for (uint64_t i = 0; i < count.count; i++) {
        const uint64_t *r = &records[i * PALGWERN_RECORD_WORDS];
        printf("%" PRIu64 "\t%s\t%s\t%s\t%08" PRIx32 "\t%s\t%08" PRIx32 "\t%c\n", i, r[0] & PALGWERN_GUTTER ? "gutter" : "track",
            r[0] & PALGWERN_COLLAPSED ? "y" : "n", sizes[r[1] >> 32], (uint32_t)r[1], sizes[r[2] >> 32], (uint32_t)r[2],
            sources[palgwern_word_source(r[0])]);
    }
}

int main(void) {
    palgwern_sheet_answer read = palgwern_tables_read(&tables, sheet, strlen(sheet));
    if (read.number != 0) {
        printf("refused\t%" PRIu32 "\t%" PRIu32 "\n", read.number, read.line);
        return 0;
    }
    print_axis(read.panel.grid, PALGWERN_COLUMNS);
    print_axis(read.panel.grid, PALGWERN_ROWS);
    for (uint32_t i = 0; i < read.panel.grid.placements; i++) {
        palgwern_placement_answer p = palgwern_tables_placement(&tables, read.panel.grid, i);
        printf("place\t%s\t%s\t%" PRId32 "\t%s\t%" PRId32 "\n", letters[p.axis], ends[p.startkind], p.startnumber, ends[p.endkind],
            p.endnumber);
    }
    return 0;
}
