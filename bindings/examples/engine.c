/* What a layout engine asks of a grid: its size, its line names, the lines of items that no sheet lists, the implicit tracks that these
 * need, the place of each line among the tracks, and the track records; then all of it once more at another inner size.
 *
 * Grids come in on standard input. Each is the lines of a sheet, the line `items`, a line for each item, which has the twelve fields of a
 * `cell` line (kind, name and number of column start, column end, row start and row end), and the line `resize`, an axis and the bits of
 * an inner size. `compare/engine` holds what is printed to taffy's own functions. */
#include "palgwern.h"
#include <inttypes.h>
#include <stdio.h>
#include <string.h>

/* One more than a call takes, so that the call refuses them. */
#define ITEMS (PALGWERN_PLACEMENTS + 1)
/* No item spans more tracks. */
#define MOST_SPAN 10000
#define LINE 4096

static const char *const kinds[] = {"auto", "line", "named", "span", "nspan"};
static const char *const sizes[] = {"len", "pct", "fr", "auto", "min", "max", "fitl", "fitp"};

/* The items on an axis: their ends, and the bytes of their names one after the other. */
typedef struct items {
    palgwern_given given[ITEMS];
    char names[ITEMS * 2 * PALGWERN_NAME_BYTES];
    size_t bytes;
} items;

/* Where an item lies: between two origin-zero lines, or, where `span` is not 0, still anywhere over so many tracks. */
typedef struct extent { int32_t start, end, span; } extent;

/* Large: not on the stack. */
static palgwern_tables tables;
static items on[2];
static char sheet[PALGWERN_SHEET_BYTES + LINE];
static int32_t numbers[PALGWERN_PLACEMENT_RUN];
static uint64_t line_names[PALGWERN_LINE_NAME_RUN], records[PALGWERN_LARGEST_RECORDS * PALGWERN_RECORD_WORDS];
static extent extents[ITEMS];
static uint8_t occupied[PALGWERN_AXIS_MARKS];

/* The kind and the number of an end; its name goes to the others of its axis, and its length is told. */
static void read_end(char **rest, items *own, uint32_t *kind, int32_t *number, uint32_t *bytes) {
    const char *word = strsep(rest, "\t"), *name = strsep(rest, "\t");
    for (*kind = 0; strcmp(word, kinds[*kind]) != 0; ++*kind) {}
    *bytes = *kind == PALGWERN_END_NAMED || *kind == PALGWERN_END_NSPAN ? (uint32_t)strlen(name) : 0;
    memcpy(own->names + own->bytes, name, *bytes);
    own->bytes += *bytes;
    sscanf(strsep(rest, "\t"), "%" SCNd32, number);
}

static void read_item(char *line, size_t at) {
    for (uint32_t axis = PALGWERN_COLUMNS; axis <= PALGWERN_ROWS; axis++) {
        palgwern_given *given = &on[axis].given[at];
        given->axis = axis;
        read_end(&line, &on[axis], &given->startkind, &given->startnumber, &given->startname);
        read_end(&line, &on[axis], &given->endkind, &given->endnumber, &given->endname);
    }
}

/* An end as an origin-zero line, or as a span of at least one track; line 0 says nothing, and a span of 0 is none. */
static uint32_t position(int32_t kind, int32_t *number, uint32_t explicit_count) {
    if (kind == PALGWERN_END_SPAN)
        *number = *number < 1 ? 1 : *number > MOST_SPAN ? MOST_SPAN : *number;
    if (kind != PALGWERN_END_LINE || *number == 0)
        return kind == PALGWERN_END_SPAN ? PALGWERN_END_SPAN : PALGWERN_END_AUTO;
    *number = palgwern_into_origin_zero_line(*number, explicit_count).line;
    return PALGWERN_END_LINE;
}

/* CSS Grid Level 1, 8.3.1: ends in the wrong order change places, of two equal lines the end is dropped, a span that is missing is 1. */
static extent extent_of(const int32_t *n, uint32_t explicit_count) {
    int32_t start = n[3], end = n[5];
    uint32_t first = position(n[2], &start, explicit_count), last = position(n[4], &end, explicit_count);
    int32_t before = first == PALGWERN_END_SPAN ? start : 1, after = last == PALGWERN_END_SPAN ? end : 1;
    if (first == PALGWERN_END_LINE && last == PALGWERN_END_LINE && start != end)
        return start < end ? (extent){start, end, 0} : (extent){end, start, 0};
    if (first == PALGWERN_END_LINE)
        return (extent){start, start + after, 0};
    if (last == PALGWERN_END_LINE)
        return (extent){end - before, end, 0};
    return (extent){0, 0, first == PALGWERN_END_SPAN ? before : after};
}

/* The grid with as many implicit tracks before and after the explicit ones as the items need: by their lines, then by the longest span that
 * is still free. */
static palgwern_grid_answer with_items(palgwern_grid grid, uint32_t axis, int32_t explicit_count, uint64_t count) {
    int32_t first = 0, last = explicit_count, longest = 0;
    for (const extent *e = extents; e < extents + count; e++) {
        first = e->start < first ? e->start : first;
        last = e->end > last ? e->end : last;
        longest = e->span > longest ? e->span : longest;
    }
    last = last < first + longest ? first + longest : last;
    printf("implicit\t%c\t%" PRId32 "\t%" PRId32 "\n", "cr"[axis], -first, last - explicit_count);
    return palgwern_with_implicit(grid, axis, (uint32_t)-first, (uint32_t)(last - explicit_count));
}

static void print_names(palgwern_grid grid, uint32_t axis) {
    const uint8_t *store = axis == PALGWERN_COLUMNS ? tables.columnstore : tables.rowstore;
    uint64_t count = palgwern_tables_names(&tables, grid, axis, line_names).count;
    for (const uint64_t *w = line_names; w < line_names + count; w++) {
        const char *name = (const char *)store + (*w >> 16 & 0xffff);
        printf("name\t%c\t%d\t%.*s\n", "cr"[axis], (int)(*w & 0xffff), (int)(*w >> 32 & 0xff), name);
    }
}

static void print_records(palgwern_grid grid, uint32_t axis) {
    size_t room = sizeof records / sizeof *records;
    uint64_t count = palgwern_records(grid, tables.words, axis, occupied, sizeof occupied, 0, records, room).count;
    for (uint64_t at = 0; at < count; at++) {
        const uint64_t *r = records + at * PALGWERN_RECORD_WORDS;
        printf("%" PRIu64 "\t%s\t%c\t%s\t%08" PRIx32 "\t%s\t%08" PRIx32 "\n", at, r[0] & PALGWERN_GUTTER ? "gutter" : "track",
            r[0] & PALGWERN_COLLAPSED ? 'y' : 'n', sizes[r[1] >> 32], (uint32_t)r[1], sizes[r[2] >> 32], (uint32_t)r[2]);
    }
}

/* The lines of an item with their records, the tracks between which are occupied; or its span. Answers the number of a refusal, or 0. */
static uint32_t print_extent(extent e, palgwern_track_counts counts, uint32_t axis) {
    palgwern_line_record_answer first = palgwern_line_record(counts, e.start), last = palgwern_line_record(counts, e.end);
    if (first.number != 0 || last.number != 0)
        return first.number != 0 ? first.number : last.number;
    if (e.span != 0) {
        printf("span\t%c\t%" PRId32 "\n", "cr"[axis], e.span);
    } else {
        printf("lines\t%c\t%" PRId32 "\t%" PRId32 "\t%" PRIu32 "\t%" PRIu32 "\n", "cr"[axis], e.start, e.end, first.place, last.place);
        memset(occupied + first.place / 2, 1, (last.place - first.place) / 2);
    }
    return 0;
}

/* The same. */
static uint32_t print_axis(palgwern_grid grid, uint32_t axis, size_t count) {
    palgwern_size_answer size = palgwern_explicit_size(grid, axis);
    printf("size\t%c\t%" PRIu32 "\t%" PRIu32 "\n", "cr"[axis], size.repetitions, size.explicit_count);
    print_names(grid, axis);
    const items *own = &on[axis];
    palgwern_given_answer placed = palgwern_tables_given(&tables, grid, own->given, count, own->names, own->bytes, numbers);
    if (placed.number != 0)
        return placed.number;
    for (uint32_t at = 0; at < placed.count; at++) {
        const int32_t *n = numbers + at * PALGWERN_PLACEMENT_NUMBERS;
        printf("place\t%c\t%s\t%" PRId32 "\t%s\t%" PRId32 "\n", "cr"[axis], kinds[n[2]], n[3], kinds[n[4]], n[5]);
        extents[at] = extent_of(n, size.explicit_count);
    }
    palgwern_grid_answer whole = with_items(grid, axis, (int32_t)size.explicit_count, placed.count);
    palgwern_track_counts counts = palgwern_counts_of(axis == PALGWERN_COLUMNS ? whole.grid.columns : whole.grid.rows);
    uint32_t refused = whole.number;
    memset(occupied, 0, sizeof occupied);
    for (uint32_t at = 0; refused == 0 && at < placed.count; at++)
        refused = print_extent(extents[at], counts, axis);
    if (refused == 0)
        print_records(whole.grid, axis);
    return refused;
}

static uint32_t print_layout(palgwern_grid grid, size_t count) {
    uint32_t refused = print_axis(grid, PALGWERN_COLUMNS, count);
    return refused != 0 ? refused : print_axis(grid, PALGWERN_ROWS, count);
}

/* A grid as it is, and at the inner size of the line `resize`. Answers the number of a refusal, or 0. */
static uint32_t print_grid(size_t sheet_bytes, size_t count, const char *resize) {
    puts("grid");
    palgwern_sheet_answer read = palgwern_tables_read(&tables, sheet, sheet_bytes);
    uint32_t inner = 0, refused = read.number != 0 ? read.number : print_layout(read.panel.grid, count);
    if (refused != 0)
        return refused;
    sscanf(resize + 9, "%" SCNx32, &inner);
    uint32_t axis = resize[7] == 'c' ? PALGWERN_COLUMNS : PALGWERN_ROWS;
    palgwern_panel_answer resized = palgwern_tables_resized(&tables, read.panel, axis, inner);
    if (resized.number != 0)
        return resized.number;
    puts(resize);
    return print_layout(resized.panel.grid, count);
}

int main(void) {
    static char line[LINE];
    size_t sheet_bytes = 0, count = 0;
    int in_items = 0;
    while (fgets(line, sizeof line, stdin) != NULL) {
        if (strncmp(line, "resize\t", 7) == 0) {
            line[strcspn(line, "\n")] = 0;
            uint32_t refused = print_grid(sheet_bytes, count, line);
            if (refused != 0)
                printf("refused\t%" PRIu32 "\n", refused);
            sheet_bytes = count = on[0].bytes = on[1].bytes = 0;
            in_items = 0;
        } else if (in_items) {
            if (count < ITEMS)
                read_item(line, count++);
        } else if (strcmp(line, "items\n") == 0) {
            in_items = 1;
        } else if (sheet_bytes <= PALGWERN_SHEET_BYTES) {
            strcpy(sheet + sheet_bytes, line);
            sheet_bytes += strlen(line);
        }
    }
    return 0;
}
