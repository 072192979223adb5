/* What layout code does with taffy's functions on grid lines, for items that no sheet lists: the sizes, the lines of the items, the implicit
 * tracks that these need, and the records of all tracks. */
#include "palgwern.h"
#include <inttypes.h>
#include <stdio.h>
#include <string.h>

/* Columns of 100 pixels that fold away where they are empty, an area over the first, and a size for implicit columns. */
static const char style[] = "axis\tc\t43960000\tmax\tlen\t00000000\n"
                            "area\tlevel\t1\t2\t1\t2\n"
                            "repeat\tc\tfit\n"
                            "name\tc\treading\n"
                            "track\tc\tlen\t42c80000\tlen\t42c80000\n"
                            "end\tc\n"
                            "spare\tc\tlen\t42200000\tlen\t42200000\n";

enum { ITEMS = 3, MOST = 32 };

/* The columns and then the rows of all items, and the bytes of their names. */
static const palgwern_given items[2][ITEMS] = {
    {{PALGWERN_COLUMNS, PALGWERN_END_NAMED, 0, 5, PALGWERN_END_NAMED, 0, 5}, {PALGWERN_COLUMNS, PALGWERN_END_NAMED, 3, 7, PALGWERN_END_SPAN, 2, 0},
     {PALGWERN_COLUMNS, PALGWERN_END_LINE, -6, 0, PALGWERN_END_LINE, -5, 0}},
    {{PALGWERN_ROWS, PALGWERN_END_NAMED, 0, 5, PALGWERN_END_NAMED, 0, 5}, {PALGWERN_ROWS, PALGWERN_END_LINE, 1, 0, PALGWERN_END_SPAN, 1, 0},
     {PALGWERN_ROWS, PALGWERN_END_AUTO, 0, 0, PALGWERN_END_SPAN, 3, 0}},
};
static const char *const names[] = {"levellevelreading", "levellevel"};

static const char *const ends[] = {"auto", "line", "", "span"};
static const char *const sources[] = {"Negative", "Template", "Automatic", "Area", "Positive", "Gutter"};

/* Large: not on the stack. */
static palgwern_tables tables;
static int32_t numbers[PALGWERN_PLACEMENT_RUN];
static uint64_t records[(2 * MOST + 1) * PALGWERN_RECORD_WORDS];

/* An item's lines, counted from the first explicit line, 0. */
typedef struct { int32_t start; int32_t end; } lines;

static int32_t span_of(int32_t kind, int32_t number) { return kind == PALGWERN_END_SPAN ? number : 1; }

static lines lines_of(const int32_t *n, uint32_t explicit_count) {
    int32_t first = palgwern_into_origin_zero_line(n[3], explicit_count).line, second = palgwern_into_origin_zero_line(n[5], explicit_count).line;
    int32_t before = span_of(n[2], n[3]), after = span_of(n[4], n[5]);
    if (n[2] == PALGWERN_END_LINE && n[4] == PALGWERN_END_LINE && first != second)
        return first < second ? (lines){first, second} : (lines){second, first};
    if (n[2] == PALGWERN_END_LINE) return (lines){first, first + after};
    if (n[4] == PALGWERN_END_LINE) return (lines){second - before, second};
    return (lines){0, before > after ? before : after};
}

/* The tracks of an axis that the items need, and which of them have items. */
static palgwern_track_counts tracks_of(uint32_t explicit_count, uint8_t marks[MOST]) {
    palgwern_track_counts counts = {0, explicit_count, 0};
    for (int i = 0; i < ITEMS; i++) {
        lines l = lines_of(numbers + i * PALGWERN_PLACEMENT_NUMBERS, explicit_count);
        if (l.start + (int32_t)counts.negative < 0) counts.negative = (uint32_t)-l.start;
        if (l.end > (int32_t)(explicit_count + counts.positive)) counts.positive = (uint32_t)l.end - explicit_count;
    }
    memset(marks, 0, MOST);
    for (int i = 0; i < ITEMS; i++) {
        lines l = lines_of(numbers + i * PALGWERN_PLACEMENT_NUMBERS, explicit_count);
        int32_t first = palgwern_next_track(counts, l.start).track;
        memset(marks + first, 1, (size_t)(l.end - l.start));
    }
    return counts;
}

static void print_axis(palgwern_grid grid, uint32_t axis) {
    uint8_t marks[MOST];
    palgwern_size_answer size = palgwern_explicit_size(grid, axis);
    printf("size\t%c\t%" PRIu32 "\t%" PRIu32 "\n", "cr"[axis], size.repetitions, size.explicit_count);
    palgwern_given_answer given = palgwern_tables_given(&tables, grid, items[axis], ITEMS, names[axis], strlen(names[axis]), numbers);
    for (const int32_t *n = numbers; n < numbers + PALGWERN_PLACEMENT_NUMBERS * given.count; n += PALGWERN_PLACEMENT_NUMBERS)
        printf("place\t%c\t%s\t%" PRId32 "\t%s\t%" PRId32 "\n", "cr"[axis], ends[n[2]], n[3], ends[n[4]], n[5]);
    palgwern_track_counts counts = tracks_of(size.explicit_count, marks);
    printf("tracks\t%c\t%" PRIu32 "\t%" PRIu32 "\t%" PRIu32 "\n", "cr"[axis], counts.negative, counts.explicit_count, counts.positive);
    palgwern_grid wide = palgwern_with_implicit(grid, axis, counts.negative, counts.positive).grid;
    palgwern_count_answer count = palgwern_records(wide, tables.words, axis, marks, sizeof marks, 0, records, sizeof records / sizeof *records);
    for (const uint64_t *r = records + PALGWERN_RECORD_WORDS; r < records + PALGWERN_RECORD_WORDS * count.count; r += 2 * PALGWERN_RECORD_WORDS)
        printf("%s\t%08" PRIx32 "%s\n", sources[palgwern_word_source(r[0])], (uint32_t)r[2], r[0] & PALGWERN_COLLAPSED ? "\tcollapsed" : "");
}

int main(void) {
    palgwern_panel panel = palgwern_tables_read(&tables, style, strlen(style)).panel;
    print_axis(panel.grid, PALGWERN_COLUMNS);
    print_axis(panel.grid, PALGWERN_ROWS);
    return 0;
}
