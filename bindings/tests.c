/* Sizes and layout of what crosses the boundary, refusals, and the stack that each call takes. */
#include "palgwern.h"
#include <pthread.h>
#include <stdio.h>
#include <stdlib.h>
#include <string.h>
#include <sys/mman.h>

_Static_assert(sizeof(palgwern_axis_grid) == 56 && sizeof(palgwern_axis_room) == 20, "axis");
_Static_assert(sizeof(palgwern_grid) == 128 && sizeof(palgwern_room) == 48 && sizeof(palgwern_panel) == 176, "panel");
_Static_assert(offsetof(palgwern_axis_space, gap) == 16 && offsetof(palgwern_axis_grid, template_counts) == 24, "space");
_Static_assert(offsetof(palgwern_axis_grid, entries) == 44 && offsetof(palgwern_axis_grid, size) == 48, "size");
_Static_assert(offsetof(palgwern_grid, areas) == 112 && offsetof(palgwern_grid, cells) == 120 && offsetof(palgwern_room, areabytes) == 40, "areas");
_Static_assert(sizeof(palgwern_panel_answer) == 184 && offsetof(palgwern_panel_answer, panel) == 8, "panel answer");
_Static_assert(sizeof(palgwern_sheet_answer) == 192 && offsetof(palgwern_sheet_answer, panel) == 16, "sheet answer");
_Static_assert(sizeof(palgwern_display_answer) == 144 && offsetof(palgwern_display_answer, grid) == 16, "display answer");
_Static_assert(sizeof(palgwern_size_answer) == 12 && sizeof(palgwern_name_answer) == 12, "answers of three numbers");
_Static_assert(sizeof(palgwern_resize_answer) == 12, "resize answer");
_Static_assert(sizeof(palgwern_count_answer) == 16 && offsetof(palgwern_count_answer, count) == 8, "count answer");
_Static_assert(sizeof(palgwern_placement_answer) == 32, "placement answer");
_Static_assert(sizeof(palgwern_line_answer) == 8, "line answer");
_Static_assert(sizeof(palgwern_track_counts) == 12 && sizeof(palgwern_conversion_answer) == 12, "counts, conversion answer");
_Static_assert(sizeof(palgwern_area_answer) == 12, "area answer");
_Static_assert(sizeof(palgwern_trial) == 12 && sizeof(palgwern_trial_answer) == 16, "trial, trial answer");
_Static_assert(sizeof(palgwern_history) == 16 && sizeof(palgwern_name_edit) == 8, "history, name");
_Static_assert(sizeof(palgwern_edit_answer) == 208 && offsetof(palgwern_edit_answer, panel) == 16 && offsetof(palgwern_edit_answer, history) == 192, "edit answer");
_Static_assert(sizeof(palgwern_given) == 28 && sizeof(palgwern_given_answer) == 12, "given, given answer");
_Static_assert(sizeof(palgwern_grid_answer) == 136 && offsetof(palgwern_grid_answer, grid) == 8, "grid answer");
_Static_assert(sizeof(palgwern_track_answer) == 8 && sizeof(palgwern_line_record_answer) == 12, "track and record answers");

_Static_assert(PALGWERN_PLACEMENT_RUN == 2 * PALGWERN_PLACEMENTS * PALGWERN_PLACEMENT_NUMBERS, "run of placements");
_Static_assert((int)PALGWERN_LINE_NAME_RUN == (int)PALGWERN_ENTRIES, "run of line names");

static palgwern_tables tables, before, copied;
static uint64_t all[PALGWERN_LARGEST_RECORDS * PALGWERN_RECORD_WORDS], some[30], names[PALGWERN_LINE_NAME_RUN];
static int32_t numbers[PALGWERN_PLACEMENT_RUN];
static uint32_t hits[PALGWERN_HITS];
static char sheet[PALGWERN_SHEET_BYTES + 1];
static size_t sheet_bytes;
static palgwern_panel panel;
static const palgwern_panel no_panel;
static int failed;

#define CHECK(x) do { if (!(x)) { printf("failed, line %d: %s\n", __LINE__, #x); failed = 1; } } while (0)
#define TEXT(s) (s), sizeof(s) - 1

/* Whether two panels are the same, whatever lies between their fields. */
static int same_template(palgwern_template_counts a, palgwern_template_counts b) {
    return a.components == b.components && a.tracks == b.tracks;
}

static int same_grid(palgwern_axis_grid a, palgwern_axis_grid b) {
    return a.space.definite == b.space.definite && a.space.inner == b.space.inner && a.space.rule == b.space.rule &&
        a.space.gap == b.space.gap && same_template(a.template_counts, b.template_counts) &&
        a.implicit.negative == b.implicit.negative && a.implicit.positive == b.implicit.positive &&
        a.implicit.spares == b.implicit.spares && a.entries == b.entries && a.size.repetitions == b.size.repetitions &&
        a.size.explicit_count == b.size.explicit_count;
}

static int same_room(palgwern_axis_room a, palgwern_axis_room b) {
    return same_template(a.template_counts, b.template_counts) && a.names == b.names && a.used == b.used && a.areas == b.areas;
}

static int same_grids(palgwern_grid a, palgwern_grid b) {
    return same_grid(a.columns, b.columns) && same_grid(a.rows, b.rows) && a.areas == b.areas && a.placements == b.placements &&
        a.cells == b.cells;
}

static int same(palgwern_panel a, palgwern_panel b) {
    return same_grids(a.grid, b.grid) && same_room(a.room.columns, b.room.columns) && same_room(a.room.rows, b.room.rows) &&
        a.room.areabytes == b.room.areabytes && a.room.placementbytes == b.room.placementbytes;
}

/* Whether an axis has these numbers in the order of its fields; the template as it is written is the one that counts. */
static int is_axis(palgwern_axis_grid g, palgwern_axis_room r, const uint64_t n[15]) {
    return g.space.definite == n[0] && g.space.inner == n[1] && g.space.rule == n[2] && g.space.gap == n[3] &&
        g.template_counts.components == n[4] && g.template_counts.tracks == n[5] && g.implicit.negative == n[6] &&
        g.implicit.positive == n[7] && g.implicit.spares == n[8] && g.entries == n[9] && g.size.repetitions == n[10] &&
        g.size.explicit_count == n[11] && r.template_counts.components == n[4] && r.template_counts.tracks == n[5] &&
        r.names == n[12] && r.used == n[13] && r.areas == n[14];
}

/* The lines of a panel of its own: tracks of 20, 100, half of 200 and 20 with gaps of 10, so lines at 0, 30, 140, 250 and 270, the second
 * the first explicit one; and no track at all in the rows. */
static void nearest(void) {
    static palgwern_tables own;
    static const struct { uint32_t cursor; int32_t line; } lines[] = {{0, -4}, {0x41700000, -4}, {0x41800000, 1}, {0x430c0000, 2},
        {0x43820000, 3}, {0x43824000, 4}, {0x477fff00, 4}};
    palgwern_sheet_answer read = palgwern_tables_read(&own, TEXT("axis\tc\t43480000\tmax\tlen\t41200000\n"
        "track\tc\tlen\t42c80000\tlen\t42c80000\ntrack\tc\tpct\t3f000000\tpct\t3f000000\n"
        "spare\tc\tlen\t41a00000\tlen\t41a00000\nextra\tc\t1\t1\n"));
    CHECK(read.number == 0);
    for (size_t i = 0; i < sizeof lines / sizeof *lines; i++) {
        palgwern_line_answer answer = palgwern_tables_nearest_line(&own, read.panel.grid, PALGWERN_COLUMNS, lines[i].cursor);
        CHECK(answer.number == 0 && answer.line == lines[i].line);
    }
    palgwern_line_answer alone = palgwern_tables_nearest_line(&own, read.panel.grid, PALGWERN_ROWS, 0x477fff00);
    CHECK(alone.number == 0 && alone.line == 1);
}

/* How many words of a region are not 0. */
static size_t words_held(size_t start, size_t length) {
    size_t held = 0;
    for (size_t i = start; i < start + length; i++) held += tables.words[i] != 0;
    return held;
}

/* Every field of the panel, on a sheet that gives them different values: no field of an axis has the values of another, in both
 * axes (tests.rs tests that), nor the same value in both. */
static void layout(void) {
    palgwern_sheet_answer read = palgwern_tables_read(&tables, sheet, sheet_bytes);
    CHECK(read.number == 0 && read.line == 0 && read.earlier == 0 && read.later == 0);
    panel = read.panel;
    const uint64_t columns[15] = {1, 0x44070000, 0, 0x13c23d70aull, 3, 4, 7, 8, 5, 22, 9, 20, 6, 13, 10};
    const uint64_t rows[15] = {0, 0, 1, 0x40000000, 2, 3, 6, 10, 4, 11, 0, 9, 5, 14, 8};
    CHECK(is_axis(panel.grid.columns, panel.room.columns, columns) && is_axis(panel.grid.rows, panel.room.rows, rows));
    CHECK(panel.grid.areas == 3 && panel.room.areabytes == 11 && panel.grid.placements == 2 && panel.grid.cells == 0 && panel.room.placementbytes == 12);
    CHECK(!memcmp(tables.columnstore, "xyyzzzuuuuuwv", 14) && !memcmp(tables.rowstore, "rownamepqssttt", 15));
    CHECK(!memcmp(tables.bytes + PALGWERN_AREA_NAMES_START, "alphabgamma", 12));
    CHECK(!memcmp(tables.bytes + PALGWERN_PLACEMENT_NAMES_START, "uuuuurowname", 13));
    const uint8_t *columnmarks = tables.bytes + PALGWERN_COLUMN_MARKS_START, *rowmarks = tables.bytes + PALGWERN_ROW_MARKS_START;
    CHECK(columnmarks[8] != 0 && columnmarks[2] == 0 && rowmarks[2] != 0 && rowmarks[8] == 0);
    CHECK(words_held(PALGWERN_COLUMNS_START, PALGWERN_AXIS_WORDS) > words_held(PALGWERN_ROWS_START, PALGWERN_AXIS_WORDS));
    CHECK(words_held(PALGWERN_AREAS_START, PALGWERN_AREA_WORDS) == 6 && tables.words[PALGWERN_AREAS_START] != 0);
    CHECK(words_held(PALGWERN_PLACEMENTS_START, PALGWERN_PLACEMENT_WORDS) == 4 && tables.words[PALGWERN_PLACEMENTS_START] != 0);
}

static int is_size(palgwern_size_answer a, uint32_t repetitions, uint32_t explicit_count) {
    return a.number == 0 && a.repetitions == repetitions && a.explicit_count == explicit_count;
}

static int is_count(palgwern_count_answer a, uint64_t count) {
    return a.number == 0 && a.count == count;
}

static int is_name(palgwern_name_answer a, uint32_t offset, uint32_t length) {
    return a.number == 0 && a.offset == offset && a.length == length;
}

/* Every kind of answer, with numbers that differ from field to field and from axis to axis. */
static void answers(void) {
    CHECK(is_size(palgwern_explicit_size(panel.grid, PALGWERN_COLUMNS), 9, 20) && is_size(palgwern_explicit_size(panel.grid, PALGWERN_ROWS), 0, 9));
    CHECK(is_count(palgwern_line_count(panel.grid, PALGWERN_COLUMNS), 21) && is_count(palgwern_line_count(panel.grid, PALGWERN_ROWS), 10));
    CHECK(is_count(palgwern_record_count(panel.grid, PALGWERN_COLUMNS), 71) && is_count(palgwern_record_count(panel.grid, PALGWERN_ROWS), 51));
    CHECK(is_name(palgwern_tables_name(&tables, panel.grid, PALGWERN_COLUMNS, 3, 0), 6, 5));
    CHECK(is_name(palgwern_tables_name(&tables, panel.grid, PALGWERN_COLUMNS, 2, 1), 3, 3));
    CHECK(is_name(palgwern_tables_name(&tables, panel.grid, PALGWERN_COLUMNS, 3, 1), 0, 0));
    CHECK(is_name(palgwern_tables_name(&tables, panel.grid, PALGWERN_ROWS, 2, 1), 8, 1));
    palgwern_placement_answer p = palgwern_tables_placement(&tables, panel.grid, 0);
    CHECK(p.number == 0 && p.axis == PALGWERN_COLUMNS && p.startkind == PALGWERN_END_LINE && p.startnumber == 5);
    CHECK(p.endkind == PALGWERN_END_SPAN && p.endnumber == 6 && p.startheld == 0 && p.endheld == 0);
    p = palgwern_tables_placement(&tables, panel.grid, 1);
    CHECK(p.number == 0 && p.axis == PALGWERN_ROWS && p.startkind == PALGWERN_END_LINE && p.startnumber == -3);
    CHECK(p.endkind == PALGWERN_END_LINE && p.endnumber == 12 && p.startheld == 0 && p.endheld == 0);
}

/* Whether record `place` of those in `all` has these words. */
static int is_record(uint32_t place, uint64_t kind, uint64_t source, uint64_t minimum, uint64_t maximum) {
    const uint64_t *words = all + PALGWERN_RECORD_WORDS * place;
    return words[0] == kind + 4 * source && palgwern_word_source(words[0]) == source && words[1] == minimum && words[2] == maximum;
}

/* Whether the tracks in `all` come from so many of each source, one after the other. */
static int are_sources(const uint32_t *counts) {
    uint32_t track = 0;
    for (uint32_t source = 0; source < PALGWERN_SOURCE_GUTTER; source++)
        for (uint32_t i = 0; i < counts[source]; i++, track++)
            if (palgwern_word_source(all[PALGWERN_RECORD_WORDS * (2 * track + 1)]) != source) return 0;
    return 1;
}

/* Records: of both axes, with the items of each, and a run of them from any on. */
static void records(void) {
    const uint64_t fraction = (uint64_t)PALGWERN_FR << 32, fit = (uint64_t)PALGWERN_FITL << 32, keyword = (uint64_t)PALGWERN_AUTO << 32;
    CHECK(is_count(palgwern_tables_records(&tables, panel.grid, PALGWERN_ROWS, 0, all, sizeof all / sizeof *all), 51));
    CHECK(is_record(13, 0, PALGWERN_SOURCE_TEMPLATE, keyword, fit | 0x41a00000));
    CHECK(is_record(14, PALGWERN_GUTTER, PALGWERN_SOURCE_GUTTER, 0x40000000, 0x40000000));
    CHECK(are_sources((const uint32_t[]){6, 9, 0, 0, 10}));
    CHECK(is_count(palgwern_tables_records(&tables, panel.grid, PALGWERN_COLUMNS, 0, all, sizeof all / sizeof *all), 71));
    CHECK(is_record(0, PALGWERN_GUTTER | PALGWERN_COLLAPSED, PALGWERN_SOURCE_GUTTER, 0, 0));
    CHECK(is_record(5, 0, PALGWERN_SOURCE_NEGATIVE, 0x41a00000, fraction | 0x3f800000));
    CHECK(is_record(15, 0, PALGWERN_SOURCE_TEMPLATE, 0x41a00000, 0x41a00000));
    CHECK(is_record(17, 0, PALGWERN_SOURCE_AUTOMATIC, 0x41a00000, 0x41a00000));
    CHECK(is_record(19, PALGWERN_COLLAPSED, PALGWERN_SOURCE_AUTOMATIC, 0, 0));
    CHECK(is_record(55, 0, PALGWERN_SOURCE_POSITIVE, 0x41a00000, fraction | 0x3f800000));
    for (uint32_t first = 0; first < 71; first += 10) {
        palgwern_count_answer run = palgwern_tables_records(&tables, panel.grid, PALGWERN_COLUMNS, first, some, 30);
        CHECK(is_count(run, first < 70 ? 10 : 1) && !memcmp(some, all + 3 * first, run.count * 24));
    }
}

/* What a run is written to, filled with a byte, so that what a call leaves shows. */
static void fill_runs(void) {
    memset(numbers, 7, sizeof numbers);
    memset(names, 7, sizeof names);
    memset(some, 7, sizeof some);
    memset(hits, 7, sizeof hits);
}

/* Whether the list from a place on is as it was filled. */
static int hits_from(size_t place) {
    for (size_t i = place; i < PALGWERN_HITS; i++) if (hits[i] != 0x07070707) return 0;
    return 1;
}

/* Whether the numbers from one on, the names from one on and the records from one on are as they were filled. */
static int filled_from(size_t number, size_t name, size_t record) {
    for (size_t i = number; i < PALGWERN_PLACEMENT_RUN; i++) if (numbers[i] != 0x07070707) return 0;
    for (size_t i = name; i < PALGWERN_LINE_NAME_RUN; i++) if (names[i] != 0x0707070707070707) return 0;
    for (size_t i = record; i < sizeof some / sizeof *some; i++) if (some[i] != 0x0707070707070707) return 0;
    return hits_from(0);
}

/* A placement of a run is the one that is asked for alone. */
static void placements(void) {
    fill_runs();
    palgwern_count_answer run = palgwern_tables_placements(&tables, panel.grid, 0, numbers);
    CHECK(is_count(run, panel.grid.placements) && filled_from(PALGWERN_PLACEMENT_NUMBERS * run.count, 0, 0));
    for (uint32_t i = 0; i < panel.grid.placements; i++) {
        palgwern_placement_answer p = palgwern_tables_placement(&tables, panel.grid, i);
        CHECK(!memcmp(&p, numbers + PALGWERN_PLACEMENT_NUMBERS * i, sizeof p));
    }
    fill_runs();
    CHECK(is_count(palgwern_tables_placements(&tables, panel.grid, 1, numbers), 1) && numbers[1] == PALGWERN_ROWS && filled_from(8, 0, 0));
}

/* Marks, of a start alone and of an end alone, asked for one by one and in a run; no two fields that follow each other have the same value. */
static void marks(void) {
    static palgwern_tables marked;
    palgwern_panel held = palgwern_tables_read(&marked, TEXT("place\tr\tline\t-\t10002\tspan\t-\t9\nplace\tc\tspan\t-\t7\tline\t-\t-10002\n")).panel;
    const int32_t start[] = {0, PALGWERN_ROWS, PALGWERN_END_LINE, 10002, PALGWERN_END_SPAN, 9, 1, 0};
    const int32_t end[] = {0, PALGWERN_COLUMNS, PALGWERN_END_SPAN, 7, PALGWERN_END_LINE, -10002, 0, 1};
    CHECK(is_count(palgwern_tables_placements(&marked, held.grid, 0, numbers), 2));
    CHECK(!memcmp(numbers, start, sizeof start) && !memcmp(numbers + PALGWERN_PLACEMENT_NUMBERS, end, sizeof end));
    palgwern_placement_answer p = palgwern_tables_placement(&marked, held.grid, 0);
    CHECK(p.number == 0 && p.axis == PALGWERN_ROWS && p.startnumber == 10002 && p.endnumber == 9 && p.startheld == 1 && p.endheld == 0);
    p = palgwern_tables_placement(&marked, held.grid, 1);
    CHECK(p.number == 0 && p.axis == PALGWERN_COLUMNS && p.startnumber == 7 && p.endnumber == -10002 && p.startheld == 0 && p.endheld == 1);
}

/* The bits of a position. */
static uint32_t bits_of(float position) {
    uint32_t bits;
    memcpy(&bits, &position, sizeof bits);
    return bits;
}

/* Whether a list has these placements from its first place on, and the rest as it was filled; filled again for the next. */
static int is_list(palgwern_count_answer answer, size_t count, const uint32_t *expected) {
    int right = is_count(answer, count) && !memcmp(hits, expected, count * sizeof *hits) && hits_from(count);
    memset(hits, 7, sizeof hits);
    return right;
}

/* Lines of the columns at 0, 12, 27, 52, 87 and 94: a negative track of 7, then 10, 20 and 30, and a positive one of 7, with gaps of 5. */
static const char positions[] =
    "axis\tc\t-\tmax\tlen\t40a00000\ntrack\tc\tlen\t41200000\tlen\t41200000\ntrack\tc\tlen\t41a00000\tlen\t41a00000\n"
    "track\tc\tlen\t41f00000\tlen\t41f00000\nspare\tc\tlen\t40e00000\tlen\t40e00000\nextra\tc\t1\t1\n"
    "place\tc\tline\t-\t1\tline\t-\t3\nplace\tr\tline\t-\t1\tline\t-\t2\nplace\tc\tline\t-\t3\tline\t-\t1\n"
    "place\tc\tline\t-\t2\tline\t-\t2\nplace\tc\tline\t-\t0\tline\t-\t2\nplace\tc\tline\t-\t1\tauto\t-\t0\n"
    "place\tc\tline\t-\t-5\tline\t-\t-1\nplace\tc\tline\t-\t5\tline\t-\t5\nplace\tc\tline\t-\t1\tline\t-\t32767\n";

/* Lists: ends of a span included, reversed ends swapped, equal ones one track; line 0, no line and lines off the grid in no list. */
static palgwern_tables listed;
static palgwern_grid listed_grid;

static void lists(void) {
    palgwern_sheet_answer read = palgwern_tables_read(&listed, positions, sizeof positions - 1);
    palgwern_grid g = listed_grid = read.panel.grid;
    const palgwern_tables *t = &listed;
    CHECK(read.number == 0);
    fill_runs();
    CHECK(is_list(palgwern_tables_within(t, g, PALGWERN_COLUMNS, bits_of(12), bits_of(52), hits), 3, (const uint32_t[]){0, 2, 3}));
    CHECK(is_list(palgwern_tables_within(t, g, PALGWERN_COLUMNS, bits_of(12.5f), bits_of(52), hits), 1, (const uint32_t[]){3}));
    CHECK(is_list(palgwern_tables_within(t, g, PALGWERN_COLUMNS, 0, bits_of(65535), hits), 4, (const uint32_t[]){0, 2, 3, 6}));
    CHECK(is_list(palgwern_tables_within(t, g, PALGWERN_COLUMNS, bits_of(52), bits_of(12), hits), 0, hits));
    CHECK(is_list(palgwern_tables_within(t, g, PALGWERN_ROWS, 0, bits_of(65535), hits), 0, hits));
    CHECK(is_list(palgwern_tables_around(t, g, PALGWERN_COLUMNS, 2, hits), 3, (const uint32_t[]){0, 2, 6}));
    CHECK(is_list(palgwern_tables_around(t, g, PALGWERN_COLUMNS, -3, hits), 3, (const uint32_t[]){0, 2, 6}));
    CHECK(is_list(palgwern_tables_around(t, g, PALGWERN_COLUMNS, 1, hits), 1, (const uint32_t[]){6}));
    CHECK(is_list(palgwern_tables_around(t, g, PALGWERN_COLUMNS, 32767, hits), 0, hits));
}

/* Of a number of placements that no sheet gives a run answers as many as fit. */
static void many_placements(void) {
    palgwern_grid forged = panel.grid;
    forged.placements = 700;
    CHECK(is_count(palgwern_tables_placements(&tables, forged, 0, numbers), 2 * PALGWERN_PLACEMENTS));
    CHECK(is_count(palgwern_tables_placements(&tables, forged, 500, numbers), 200));
    forged.placements = UINT32_MAX;
    CHECK(is_count(palgwern_tables_placements(&tables, forged, UINT32_MAX - 1, numbers), 1));
}

/* The names of a run are those that are asked for one by one. */
static void line_names(uint32_t axis) {
    fill_runs();
    palgwern_count_answer run = palgwern_tables_names(&tables, panel.grid, axis, names);
    uint64_t seen = 0;
    CHECK(run.number == 0 && filled_from(0, run.count, 0));
    for (uint32_t line = 1; line <= palgwern_line_count(panel.grid, axis).count; line++)
        for (uint32_t place = 0;; place++) {
            palgwern_name_answer name = palgwern_tables_name(&tables, panel.grid, axis, line, place);
            if (name.length == 0) break;
            CHECK(seen < run.count && palgwern_word_line(names[seen]) == line);
            CHECK(palgwern_word_offset(names[seen]) == name.offset && palgwern_word_length(names[seen]) == name.length);
            seen++;
        }
    CHECK(seen == run.count);
}

/* ---- refusals: each of every call, all else in the answer 0, and everything lent as it was */

static int untouched(void) {
    return !memcmp(&before, &tables, sizeof tables) && filled_from(0, 0, 0);
}

static int sheet_refused(palgwern_sheet_answer a, uint32_t number, uint32_t line) {
    return a.number == number && a.line == line && a.earlier == 0 && a.later == 0 && same(a.panel, no_panel) && untouched();
}

static int display_refused(palgwern_display_answer a, uint32_t number, uint32_t line) {
    return a.number == number && a.line == line && a.earlier == 0 && a.later == 0 && same_grids(a.grid, no_panel.grid) && untouched();
}

static int entry_refused(palgwern_panel_answer a, uint32_t number) {
    return a.number == number && a.line == 0 && same(a.panel, panel) && untouched();
}

static int size_refused(palgwern_size_answer a, uint32_t number) {
    return a.number == number && a.repetitions == 0 && a.explicit_count == 0 && untouched();
}

static int count_refused(palgwern_count_answer a, uint32_t number) {
    return a.number == number && a.count == 0 && untouched();
}

static int name_refused(palgwern_name_answer a, uint32_t number) {
    return a.number == number && a.offset == 0 && a.length == 0 && untouched();
}

static int placement_refused(palgwern_placement_answer a, uint32_t number) {
    return a.number == number && a.axis == 0 && a.startkind == 0 && a.startnumber == 0 && a.endkind == 0 && a.endnumber == 0 && a.startheld == 0 &&
        a.endheld == 0 && untouched();
}

#define AXIS_LINE "axis\tc\t-\tmax\tlen\t00000000\n"
#define SPARE_LINE "spare\tc\tauto\t00000000\tauto\t00000000\n"
#define EIGHT(s) s s s s s s s s

/* A sheet for each number that one is refused by. */
static const struct { const char *text; uint32_t number, line; } refused_sheets[] = {
    {AXIS_LINE "none\n", PALGWERN_UNREAD, 2},
    {"repeat\tc\tfill\n", PALGWERN_UNREAD, 2},
    {"name\tc\t\n", PALGWERN_NAME, 1},
    {AXIS_LINE "track\tc\tlen\tffffffff\tauto\t00000000\n", PALGWERN_VALUE, 2},
    {"extra\tc\t10001\t0\n", PALGWERN_COUNT, 1},
    {"area\ta\t2\t2\t1\t2\n", PALGWERN_AREA, 1},
    {AXIS_LINE AXIS_LINE, PALGWERN_TWICE, 2},
    {"name\tc\tx\nname\tc\ty\n" AXIS_LINE, PALGWERN_LATE, 3},
    {EIGHT(EIGHT(SPARE_LINE)) SPARE_LINE, PALGWERN_CROWDED, 65},
    {"row\n", PALGWERN_UNREAD, 1},
    {"row\ta\t\n", PALGWERN_NAME, 1},
    {"row\ta\narea\ta\t1\t2\t1\t2\n", PALGWERN_TWICE, 2},
    {"row\ta\narea\tb\t1\t2\t1\t2\n", PALGWERN_LATE, 2},
    {"area\tb\t1\t2\t1\t2\nrow\ta\n", PALGWERN_LATE, 2},
    {"row\ta\tb\nrow\ta\nrow\ta\tb\n", PALGWERN_UNEQUAL, 2},
    {"row\ta\t.\ta\nrow\tb\tb\tb\nnone\n", PALGWERN_BROKEN, 2},
};

static void refused_by_sheet(void) {
    for (size_t i = 0; i < sizeof refused_sheets / sizeof *refused_sheets; i++) {
        const char *text = refused_sheets[i].text;
        palgwern_sheet_answer read = palgwern_tables_read(&tables, text, strlen(text));
        CHECK(sheet_refused(read, refused_sheets[i].number, refused_sheets[i].line));
        CHECK(display_refused(palgwern_tables_display(&tables, text, strlen(text)), refused_sheets[i].number, refused_sheets[i].line));
    }
    CHECK(sheet_refused(palgwern_tables_read(&tables, sheet, sizeof sheet), PALGWERN_UNREAD, 0));
    CHECK(display_refused(palgwern_tables_display(&tables, sheet, sizeof sheet), PALGWERN_UNREAD, 0));
}

#define APART_LINE "area\ta\t1\t2\t1\t2\n"
#define SHARING_LINES "area\tb\t3\t5\t3\t5\narea\tc\t4\t6\t4\t7\n"

/* Areas that share a cell: 12 at line 4 with areas 2 and 3, before a later fault; that fault is the display call's. */
static void refused_by_overlap(void) {
    palgwern_sheet_answer read = palgwern_tables_read(&tables, TEXT(AXIS_LINE APART_LINE SHARING_LINES "none\n"));
    CHECK(read.number == PALGWERN_OVERLAP && read.line == 4 && read.earlier == 2 && read.later == 3 && same(read.panel, no_panel) && untouched());
    CHECK(display_refused(palgwern_tables_display(&tables, TEXT(AXIS_LINE APART_LINE SHARING_LINES "none\n")), PALGWERN_UNREAD, 5));
    CHECK(sheet_refused(palgwern_tables_read(&tables, TEXT("area\ta\t1\t3\t1\t3\narea\ta\t1\t3\t1\t3\n")), PALGWERN_TWICE, 2));
}

/* A picture: areas in order of first cell with their edges and names, and its rows and width as explicit counts. */
static void picture(void) {
    static palgwern_tables own;
    palgwern_sheet_answer read = palgwern_tables_read(&own, TEXT("row\tb\tb\ta\t...\nrow\t.\t.\ta\t.\nrow\t.\t.\t.\t.\n"
                                                                 "place\tc\tnamed\ta\t0\tauto\t-\t0\nplace\tr\tauto\t-\t0\tnamed\ta\t0\n"));
    CHECK(read.number == 0 && read.line == 0 && read.panel.grid.areas == 2 && read.panel.room.areabytes == 2);
    CHECK(!memcmp(own.bytes + PALGWERN_AREA_NAMES_START, "ba", 2));
    CHECK(palgwern_explicit_size(read.panel.grid, PALGWERN_COLUMNS).explicit_count == 4);
    CHECK(palgwern_explicit_size(read.panel.grid, PALGWERN_ROWS).explicit_count == 3);
    CHECK(palgwern_tables_placement(&own, read.panel.grid, 0).startnumber == 3);
    CHECK(palgwern_tables_placement(&own, read.panel.grid, 1).endnumber == 3);
    CHECK(palgwern_tables_display(&own, TEXT("row\t.\t.\n")).grid.columns.size.explicit_count == 2);
}

/* Refused for a name, or for a number that is no axis, line, placement or record. */
static void refused_by_numbers(void) {
    CHECK(entry_refused(palgwern_tables_enter(&tables, panel, PALGWERN_ROWS, 1, TEXT("not a name")), PALGWERN_NAME));
    CHECK(entry_refused(palgwern_tables_enter(&tables, panel, 2, 1, TEXT("")), PALGWERN_NAME));
    CHECK(entry_refused(palgwern_tables_enter(&tables, panel, 2, 1, TEXT("a")), PALGWERN_COUNT));
    CHECK(entry_refused(palgwern_tables_enter(&tables, panel, PALGWERN_ROWS, 0, TEXT("a")), PALGWERN_COUNT));
    CHECK(entry_refused(palgwern_tables_enter(&tables, panel, PALGWERN_ROWS, PALGWERN_ENTERED_LINE + 1, TEXT("a")), PALGWERN_COUNT));
    CHECK(size_refused(palgwern_explicit_size(panel.grid, 2), PALGWERN_COUNT));
    CHECK(count_refused(palgwern_line_count(panel.grid, 2), PALGWERN_COUNT));
    CHECK(count_refused(palgwern_record_count(panel.grid, 2), PALGWERN_COUNT));
    CHECK(placement_refused(palgwern_tables_placement(&tables, panel.grid, 2), PALGWERN_COUNT));
    CHECK(count_refused(palgwern_tables_placements(&tables, panel.grid, 2, numbers), PALGWERN_COUNT));
    CHECK(name_refused(palgwern_tables_name(&tables, panel.grid, 2, 1, 0), PALGWERN_COUNT));
    CHECK(count_refused(palgwern_tables_names(&tables, panel.grid, 2, names), PALGWERN_COUNT));
    CHECK(count_refused(palgwern_tables_records(&tables, panel.grid, 2, 0, some, 30), PALGWERN_COUNT));
    CHECK(count_refused(palgwern_tables_records(&tables, panel.grid, PALGWERN_COLUMNS, 71, some, 30), PALGWERN_COUNT));
}

/* An explicit count that no sheet gives, of the rows: their placement and their line names are refused. */
static void refused_by_count(void) {
    palgwern_grid forged = panel.grid;
    forged.rows.size.explicit_count = PALGWERN_TRACKS + 1;
    CHECK(placement_refused(palgwern_tables_placement(&tables, forged, 1), PALGWERN_COUNT));
    CHECK(count_refused(palgwern_tables_names(&tables, forged, PALGWERN_ROWS, names), PALGWERN_COUNT));
    CHECK(palgwern_tables_placement(&tables, forged, 0).number == 0);
    CHECK(is_count(palgwern_tables_placements(&tables, forged, 0, numbers), 2) && numbers[0] == 0 && numbers[8] == PALGWERN_COUNT);
    fill_runs();
}

/* Either store short: refused by 10, after every other number. */
static void refused_by_stores(size_t column_bytes, size_t row_bytes) {
    const palgwern_tables *t = &tables;
    uint8_t *c = tables.columnstore, *r = tables.rowstore;
    CHECK(sheet_refused(palgwern_read_sheet((const uint8_t *)sheet, sheet_bytes, tables.words, tables.bytes, c, column_bytes, r, row_bytes),
        PALGWERN_SHORT, 0));
    CHECK(sheet_refused(palgwern_read_sheet((const uint8_t *)"none\n", 5, tables.words, tables.bytes, c, column_bytes, r, row_bytes),
        PALGWERN_UNREAD, 1));
    CHECK(display_refused(palgwern_display_sheet((const uint8_t *)sheet, sheet_bytes, tables.words, tables.bytes, c, column_bytes, r, row_bytes),
        PALGWERN_SHORT, 0));
    for (uint32_t axis = 0; axis < 3; axis++) {
        uint32_t number = axis < 2 ? PALGWERN_SHORT : PALGWERN_COUNT;
        const uint8_t *name = (const uint8_t *)"a";
        CHECK(entry_refused(palgwern_enter_name(panel, tables.words, c, column_bytes, r, row_bytes, axis, 1, name, 1), number));
        CHECK(entry_refused(palgwern_enter_name(panel, tables.words, c, column_bytes, r, row_bytes, axis, 1, name, 0), PALGWERN_NAME));
        CHECK(name_refused(palgwern_line_name(panel.grid, t->words, c, column_bytes, r, row_bytes, axis, 1, 0), number));
        CHECK(count_refused(palgwern_line_names(panel.grid, t->words, c, column_bytes, r, row_bytes, axis, names), number));
    }
    for (uint32_t index = 0; index < 3; index++) {
        uint32_t number = index < 2 ? PALGWERN_SHORT : PALGWERN_COUNT;
        CHECK(placement_refused(palgwern_resolve_placement(panel.grid, t->words, t->bytes, c, column_bytes, r, row_bytes, index), number));
        CHECK(count_refused(palgwern_resolve_placements(panel.grid, t->words, t->bytes, c, column_bytes, r, row_bytes, index, numbers), number));
    }
}

static int line_refused(palgwern_line_answer answer, uint32_t number) {
    return answer.number == number && answer.line == 0;
}

/* The nearest line's: 3 before 4, 4 before 10, 10 before 11. The layout's columns have sizes that are not definite. */
static void refused_by_cursor(void) {
    const uint8_t *items = tables.bytes;
    palgwern_grid forged = panel.grid;
    forged.columns.implicit.positive = 10001;
    CHECK(line_refused(palgwern_tables_nearest_line(&tables, panel.grid, 2, 0x477fff01), PALGWERN_VALUE));
    CHECK(line_refused(palgwern_tables_nearest_line(&tables, panel.grid, PALGWERN_COLUMNS, 0x80000000), PALGWERN_VALUE));
    CHECK(line_refused(palgwern_tables_nearest_line(&tables, panel.grid, 2, 0x477fff00), PALGWERN_COUNT));
    CHECK(line_refused(palgwern_nearest_line(forged, tables.words, PALGWERN_COLUMNS, items, 0, 0), PALGWERN_COUNT));
    CHECK(line_refused(palgwern_nearest_line(panel.grid, tables.words, PALGWERN_COLUMNS, items, 34, 0), PALGWERN_SHORT));
    CHECK(line_refused(palgwern_nearest_line(panel.grid, tables.words, PALGWERN_COLUMNS, items, 35, 0), PALGWERN_INDEFINITE));
}

/* Fewer item bytes than tracks, or words for no record. */
static void refused_by_records(void) {
    const uint8_t *items = tables.bytes;
    CHECK(count_refused(palgwern_tables_records(&tables, panel.grid, PALGWERN_COLUMNS, 70, some, 2), PALGWERN_SHORT));
    CHECK(count_refused(palgwern_tables_records(&tables, panel.grid, PALGWERN_ROWS, 0, some, 0), PALGWERN_SHORT));
    CHECK(count_refused(palgwern_records(panel.grid, tables.words, PALGWERN_COLUMNS, items, 34, 0, some, 30), PALGWERN_SHORT));
    CHECK(count_refused(palgwern_records(panel.grid, tables.words, PALGWERN_ROWS, items, 24, 0, some, 30), PALGWERN_SHORT));
    CHECK(count_refused(palgwern_records(panel.grid, tables.words, PALGWERN_COLUMNS, items, 0, 71, some, 0), PALGWERN_COUNT));
}

/* Lists: 3 for an end of a span, 4 for an axis, a count and a line, 9 for line 0, 10 for items and stores, and 11 after all of these. */
static void refused_lists(void) {
    const palgwern_tables *t = &tables;
    const uint8_t *items = tables.bytes, *c = tables.columnstore, *r = tables.rowstore;
    size_t n = PALGWERN_STORE_BYTES;
    const uint32_t wide = bits_of(65536), minus = bits_of(-0.0f);
    palgwern_grid g = panel.grid, forged = panel.grid;
    forged.columns.size.explicit_count = PALGWERN_TRACKS + 1;
    CHECK(count_refused(palgwern_tables_within(t, g, PALGWERN_COLUMNS, 0, 0, hits), PALGWERN_INDEFINITE));
    CHECK(count_refused(palgwern_tables_around(t, g, PALGWERN_ROWS, 1, hits), PALGWERN_INDEFINITE));
    CHECK(count_refused(palgwern_placements_within(g, t->words, t->bytes, c, n, r, n - 1, 0, items, 35, 0, 0, hits), PALGWERN_SHORT));
    CHECK(count_refused(palgwern_placements_within(g, t->words, t->bytes, c, n - 1, r, n, 0, items, 35, 0, 0, hits), PALGWERN_SHORT));
    CHECK(count_refused(palgwern_placements_within(g, t->words, t->bytes, c, n, r, n, 0, items, 34, 0, 0, hits), PALGWERN_SHORT));
    CHECK(count_refused(palgwern_placements_around(g, t->words, t->bytes, c, n, r, n, 0, items, 34, 1, hits), PALGWERN_SHORT));
    CHECK(count_refused(palgwern_placements_around(g, t->words, t->bytes, c, 0, r, 0, 0, items, 0, 0, hits), PALGWERN_ZERO_LINE));
    CHECK(count_refused(palgwern_placements_around(g, t->words, t->bytes, c, 0, r, 0, 0, items, 0, 32768, hits), PALGWERN_COUNT));
    CHECK(count_refused(palgwern_tables_around(t, g, PALGWERN_COLUMNS, -32769, hits), PALGWERN_COUNT));
    CHECK(count_refused(palgwern_tables_around(t, forged, PALGWERN_COLUMNS, 0, hits), PALGWERN_COUNT));
    CHECK(count_refused(palgwern_tables_around(t, g, 2, 0, hits), PALGWERN_COUNT));
    CHECK(count_refused(palgwern_tables_within(t, g, 2, 0, 0, hits), PALGWERN_COUNT));
    CHECK(count_refused(palgwern_tables_within(t, g, 2, wide, 0, hits), PALGWERN_VALUE));
    CHECK(count_refused(palgwern_tables_within(t, forged, PALGWERN_COLUMNS, 0, 0, hits), PALGWERN_COUNT));
    CHECK(count_refused(palgwern_tables_within(t, forged, PALGWERN_COLUMNS, 0, wide, hits), PALGWERN_VALUE));
    CHECK(count_refused(palgwern_tables_within(t, g, PALGWERN_COLUMNS, minus, 0, hits), PALGWERN_VALUE));
}

static void refusals(void) {
    before = tables;
    fill_runs();
    refused_by_sheet();
    refused_by_overlap();
    picture();
    refused_by_numbers();
    refused_by_count();
    refused_by_stores(PALGWERN_STORE_BYTES - 1, PALGWERN_STORE_BYTES);
    refused_by_stores(PALGWERN_STORE_BYTES, PALGWERN_STORE_BYTES - 1);
    refused_by_stores(0, 0);
    refused_by_records();
    refused_by_cursor();
    refused_lists();
}

/* ---- display: what answers is that of the sheet call where that accepts, and areas may share cells */

static void display(void) {
    static palgwern_tables shown;
    memset(&shown, 0x5a, sizeof shown);
    memcpy(shown.columnstore, tables.columnstore, sizeof shown.columnstore);
    memcpy(shown.rowstore, tables.rowstore, sizeof shown.rowstore);
    palgwern_display_answer a = palgwern_tables_display(&shown, sheet, sheet_bytes);
    CHECK(a.number == 0 && a.line == 0 && a.earlier == 0 && a.later == 0 && same_grids(a.grid, panel.grid));
    CHECK(!memcmp(&shown, &tables, sizeof tables));
    a = palgwern_tables_display(&shown, TEXT(AXIS_LINE APART_LINE SHARING_LINES "area\td\t1\t6\t1\t6\nplace\tr\tnamed\tc\t0\tauto\t-\t0\n"));
    CHECK(a.number == 0 && a.line == 0 && a.earlier == 2 && a.later == 3 && a.grid.areas == 4 && a.grid.placements == 1);
    CHECK(a.grid.columns.size.explicit_count == 6 && a.grid.rows.size.explicit_count == 5);
    CHECK(palgwern_tables_placement(&shown, a.grid, 0).startnumber == 4);
}

/* ---- entries */

/* Whether the words outside of an axis, all bytes and the other store are as they were. */
static int others_stay(uint32_t axis) {
    size_t start = axis == PALGWERN_ROWS ? PALGWERN_ROWS_START : PALGWERN_COLUMNS_START, end = start + PALGWERN_AXIS_WORDS;
    const uint8_t *store = axis == PALGWERN_ROWS ? tables.columnstore : tables.rowstore;
    const uint8_t *held = axis == PALGWERN_ROWS ? before.columnstore : before.rowstore;
    return !memcmp(before.words, tables.words, start * sizeof *tables.words) &&
        !memcmp(before.words + end, tables.words + end, (PALGWERN_PANEL_WORDS - end) * sizeof *tables.words) &&
        !memcmp(before.bytes, tables.bytes, sizeof tables.bytes) && !memcmp(held, store, PALGWERN_STORE_BYTES);
}

/* A name entered on an axis: one entry more, and everything of the other axis, the areas and the placements as it was. */
static void one_entry(uint32_t axis, palgwern_panel expected) {
    before = tables;
    palgwern_panel_answer e = palgwern_tables_enter(&tables, panel, axis, 3, TEXT("entered"));
    CHECK(e.number == 0 && e.line == 0 && same(e.panel, expected) && others_stay(axis));
    const uint8_t *store = axis == PALGWERN_ROWS ? tables.rowstore : tables.columnstore;
    uint32_t used = axis == PALGWERN_ROWS ? panel.room.rows.used : panel.room.columns.used;
    CHECK(!memcmp(store + used, "entered", 8) && memcmp(before.words, tables.words, sizeof tables.words));
    panel = expected;
}

/* Entries on each axis, and then on the rows as many as there can be. */
static void entries(void) {
    palgwern_panel expected = panel;
    expected.grid.columns.entries++, expected.room.columns.used += 7;
    one_entry(PALGWERN_COLUMNS, expected);
    expected.grid.rows.entries++, expected.room.rows.used += 7;
    one_entry(PALGWERN_ROWS, expected);
    before = tables;
    for (uint32_t i = panel.grid.rows.entries; i < PALGWERN_ENTRIES; i++) {
        palgwern_panel_answer e = palgwern_tables_enter(&tables, panel, PALGWERN_ROWS, i + 1, TEXT("a"));
        CHECK(e.number == 0 && e.panel.grid.rows.entries == i + 1 && e.panel.room.rows.used == panel.room.rows.used + 1);
        panel = e.panel;
    }
    CHECK(others_stay(PALGWERN_ROWS) && !memcmp(tables.rowstore, "rownamepqsstttenteredaa", 23));
    before = tables;
    fill_runs();
    CHECK(entry_refused(palgwern_tables_enter(&tables, panel, PALGWERN_ROWS, 1, TEXT("a")), PALGWERN_CROWDED));
}

#define REPEAT_LINES(kind, bits) "repeat\tc\tfill\ntrack\tc\t" kind "\t" bits "\t" kind "\t" bits "\nend\tc\n"
#define LENGTH_LINE(bits) "track\tc\tlen\t" bits "\tlen\t" bits "\n"
#define SIZE_LINE(bits) "axis\tc\t" bits "\tmax\tlen\t00000000\n"

/* Sheets and the least resize of their columns: a number that refuses, or whether there is one and its size. */
static const struct { const char *text; uint32_t number, found, size; } resized_sheets[] = {
    {SIZE_LINE("41200000") REPEAT_LINES("len", "3f800000"), 0, 1, 11},                               /* 1 wide at 10 */
    {SIZE_LINE("41200000") REPEAT_LINES("len", "40400000"), 0, 1, 12},                               /* 3 wide: 12 before 8 */
    {SIZE_LINE("41a00000") REPEAT_LINES("len", "41200000"), 0, 1, 19},                               /* 10 wide at 20: narrower */
    {SIZE_LINE("42c80000") REPEAT_LINES("len", "46ffff00"), 0, 1, 65535},                            /* 32,767.5 wide at 100 */
    {SIZE_LINE("42c80000") LENGTH_LINE("3f800000") REPEAT_LINES("len", "477fff00"), 0, 0, 0},        /* once at every size */
    {SIZE_LINE("41000000") REPEAT_LINES("pct", "3e4ccccd"), 0, 1, 9},                                /* 20 %: 5 at 8, 4 at 9 */
    {SIZE_LINE("41280000") REPEAT_LINES("len", "3f800000"), PALGWERN_VALUE, 0, 0},                   /* 10.5 is not whole */
    {AXIS_LINE REPEAT_LINES("len", "3f800000"), PALGWERN_VALUE, 0, 0},                               /* no inner size */
    {"axis\tc\t41200000\tmax\tpct\t3c23d70a\n" REPEAT_LINES("len", "3f800000"), PALGWERN_VALUE, 0, 0}, /* a gap in percent */
    {SIZE_LINE("41200000") LENGTH_LINE("3f800000"), PALGWERN_VALUE, 0, 0},                           /* no repeat */
    {SIZE_LINE("41200000") REPEAT_LINES("len", "3f800000") "repeat\tc\t0\n" LENGTH_LINE("3f800000") "end\tc\n", PALGWERN_VALUE, 0, 0}, /* counts as none */
};

static int is_resize(palgwern_resize_answer a, uint32_t number, uint32_t found, uint32_t size) {
    return a.number == number && a.found == found && a.size == size;
}

static void resizes(void) {
    for (size_t i = 0; i < sizeof resized_sheets / sizeof *resized_sheets; i++) {
        const char *text = resized_sheets[i].text;
        palgwern_sheet_answer read = palgwern_tables_read(&tables, text, strlen(text));
        CHECK(read.number == 0);
        before = tables;
        palgwern_resize_answer a = palgwern_tables_resize(&tables, read.panel.grid, PALGWERN_COLUMNS);
        CHECK(is_resize(a, resized_sheets[i].number, resized_sheets[i].found, resized_sheets[i].size));
        CHECK(is_resize(palgwern_tables_resize(&tables, read.panel.grid, PALGWERN_ROWS), PALGWERN_VALUE, 0, 0));
        CHECK(is_resize(palgwern_tables_resize(&tables, read.panel.grid, 2), PALGWERN_COUNT, 0, 0));
        CHECK(!memcmp(&tables, &before, sizeof tables));
    }
}

/* Area a is drawn from column line 2 on, and line 1 bears a-start too; b is made by names alone, c has an end alone; p is a picture's. */
static const char areas_sheet[] = "area\ta\t1\t2\t2\t3\nname\tc\ta-start\nname\tc\tb-start\ntrack\tc\tauto\t00000000\tauto\t00000000\n"
    "track\tc\tauto\t00000000\tauto\t00000000\nname\tc\tb-end\nname\tc\tc-end\nplace\tc\tnamed\ta\t0\tnamed\tb\t0\nplace\tc\tnamed\td\t0\tauto\t-\t0\n";
static const char picture_sheet[] = "row\t.\tp\tp\nrow\t.\tp\tp\nrow\t.\t.\t.\n";

static int is_area(palgwern_area_answer a, uint32_t number, uint32_t start, uint32_t end) {
    return a.number == number && a.start == start && a.end == end;
}

static void areas(void) {
    palgwern_sheet_answer read = palgwern_tables_read(&tables, areas_sheet, sizeof areas_sheet - 1);
    CHECK(read.number == 0);
    before = tables;
    palgwern_grid grid = read.panel.grid;
    CHECK(is_area(palgwern_tables_drawn_area(&tables, grid, PALGWERN_COLUMNS, "a", 1), 0, 2, 3));
    CHECK(is_area(palgwern_tables_drawn_area(&tables, grid, PALGWERN_ROWS, "a", 1), 0, 1, 2));
    CHECK(is_area(palgwern_tables_drawn_area(&tables, grid, PALGWERN_COLUMNS, "b", 1), 0, 0, 0));
    CHECK(is_area(palgwern_tables_named_area(&tables, grid, PALGWERN_COLUMNS, "a", 1), 0, 1, 3));
    CHECK(is_area(palgwern_tables_named_area(&tables, grid, PALGWERN_ROWS, "a", 1), 0, 1, 2));
    CHECK(is_area(palgwern_tables_named_area(&tables, grid, PALGWERN_COLUMNS, "b", 1), 0, 1, 3));
    CHECK(is_area(palgwern_tables_named_area(&tables, grid, PALGWERN_ROWS, "b", 1), 0, 0, 0));
    CHECK(is_area(palgwern_tables_named_area(&tables, grid, PALGWERN_COLUMNS, "c", 1), 0, 0, 3));
    CHECK(is_area(palgwern_tables_named_area(&tables, grid, PALGWERN_COLUMNS, "a-start", 7), 0, 0, 0));
    palgwern_placement_answer p = palgwern_tables_placement(&tables, grid, 0);
    CHECK(p.startnumber == 1 && p.endnumber == 3);
    CHECK(!memcmp(&tables, &before, sizeof tables));
    palgwern_panel_answer entered = palgwern_tables_enter(&tables, read.panel, PALGWERN_COLUMNS, 20000, TEXT("d-start"));
    CHECK(is_area(palgwern_tables_named_area(&tables, entered.panel.grid, PALGWERN_COLUMNS, "d", 1), 0, 20000, 0));
    p = palgwern_tables_placement(&tables, entered.panel.grid, 1);
    CHECK(p.startnumber == 10001 && p.startheld == 1);
    read = palgwern_tables_read(&tables, picture_sheet, sizeof picture_sheet - 1);
    CHECK(is_area(palgwern_tables_drawn_area(&tables, read.panel.grid, PALGWERN_COLUMNS, "p", 1), 0, 2, 4));
    CHECK(is_area(palgwern_tables_named_area(&tables, read.panel.grid, PALGWERN_ROWS, "p", 1), 0, 1, 3));
}

static const char long_name[] = "aaaaaaaaaaaaaaaaaaaaaaaaaaaaaaaaa";

static void refused_areas(void) {
    palgwern_grid grid = palgwern_tables_read(&tables, sheet, sheet_bytes).panel.grid;
    for (uint32_t axis = 0; axis < 3; axis++) {
        uint32_t number = axis < 2 ? 0 : PALGWERN_COUNT;
        CHECK(is_area(palgwern_tables_drawn_area(&tables, grid, axis, long_name, 32), number, 0, 0));
        CHECK(is_area(palgwern_tables_named_area(&tables, grid, axis, long_name, 32), number, 0, 0));
        for (size_t length = 0; length <= 33; length += 33) {
            CHECK(is_area(palgwern_tables_drawn_area(&tables, grid, axis, long_name, length), PALGWERN_NAME, 0, 0));
            CHECK(is_area(palgwern_tables_named_area(&tables, grid, axis, long_name, length), PALGWERN_NAME, 0, 0));
        }
        for (size_t less = 0; less < 2; less++) {
            number = axis < 2 ? PALGWERN_SHORT : PALGWERN_COUNT;
            CHECK(is_area(palgwern_named_area(grid, tables.words, tables.bytes, tables.columnstore, sizeof tables.columnstore - less,
                tables.rowstore, sizeof tables.rowstore - 1 + less, axis, (const uint8_t *)"a", 1), number, 0, 0));
        }
    }
}

/* Columns of 100 with gaps of 10, as often as fit, at inner size 99, with the rule and an area of five tracks. */
#define FILLED(rule) "axis\tc\t42c60000\t" rule "\tlen\t41200000\narea\ta\t1\t2\t1\t6\nrepeat\tc\tfill\ntrack\tc\tlen\t42c80000\tlen\t42c80000\nend\tc\n"

/* Sheets, and what their columns have at an inner size: the rules; gaps in percent; three tracks of 1, which pass 10,000 at 10,002; tracks of
 * 0, counted as 1; a template that counts as none, and one without a repeat. */
static const struct { const char *text; float inner; uint32_t number, repetitions, explicit_count; } sized_sheets[] = {
    {FILLED("max"), 320, 0, 3, 5}, {FILLED("max"), 319, 0, 2, 5}, {FILLED("min"), 319, 0, 3, 5}, {FILLED("max"), 99, 0, 1, 5},
    {FILLED("max"), 0, 0, 1, 5}, {FILLED("max"), 1000, 0, 9, 9}, {FILLED("max"), 65535, 0, 595, 595}, {FILLED("max"), 65536, 3, 0, 0},
    {FILLED("max"), -1, 3, 0, 0}, {FILLED("max"), -0.0f, 3, 0, 0},
    {"axis\tc\t-\tmax\tpct\t3dcccccd\nrepeat\tc\tfit\ntrack\tc\tlen\t42c80000\tlen\t42c80000\nend\tc\n", 320, 0, 2, 2},
    {"repeat\tc\tfill\ntrack\tc\tlen\t3f800000\tlen\t3f800000\ntrack\tc\tlen\t3f800000\tlen\t3f800000\ntrack\tc\tlen\t3f800000\tlen\t3f800000\nend\tc\n",
        10001, 0, 3333, 9999},
    {"repeat\tc\tfill\ntrack\tc\tlen\t3f800000\tlen\t3f800000\ntrack\tc\tlen\t3f800000\tlen\t3f800000\ntrack\tc\tlen\t3f800000\tlen\t3f800000\nend\tc\n",
        10002, 4, 0, 0},
    {"repeat\tc\tfill\ntrack\tc\tlen\t00000000\tlen\t00000000\nend\tc\n", 10, 0, 10, 10},
    {"repeat\tc\tfill\ntrack\tc\tlen\t3f800000\tlen\t3f800000\nend\tc\ntrack\tc\tauto\t00000000\tauto\t00000000\n", 10, 0, 0, 0},
    {"track\tc\tauto\t00000000\tauto\t00000000\n", 10, 0, 0, 1},
};

static int is_size_at(palgwern_size_answer a, uint32_t number, uint32_t repetitions, uint32_t explicit_count) {
    return a.number == number && a.repetitions == repetitions && a.explicit_count == explicit_count;
}

static void sizes(void) {
    for (size_t i = 0; i < sizeof sized_sheets / sizeof *sized_sheets; i++) {
        palgwern_sheet_answer read = palgwern_tables_read(&tables, sized_sheets[i].text, strlen(sized_sheets[i].text));
        CHECK(read.number == 0);
        before = tables;
        palgwern_size_answer a = palgwern_tables_size_at(&tables, read.panel, PALGWERN_COLUMNS, bits_of(sized_sheets[i].inner));
        CHECK(is_size_at(a, sized_sheets[i].number, sized_sheets[i].repetitions, sized_sheets[i].explicit_count));
        CHECK(!memcmp(&tables, &before, sizeof tables));
    }
    palgwern_sheet_answer read = palgwern_tables_read(&tables, sheet, sheet_bytes);
    for (uint32_t axis = 0; axis < 3; axis++) {
        CHECK(palgwern_tables_size_at(&tables, read.panel, axis, 0x7fc00000).number == PALGWERN_VALUE);
    }
    CHECK(is_size_at(palgwern_tables_size_at(&tables, read.panel, 2, 0), PALGWERN_COUNT, 0, 0));
    palgwern_size_answer now = palgwern_explicit_size(read.panel.grid, PALGWERN_COLUMNS);
    palgwern_size_answer own = palgwern_tables_size_at(&tables, read.panel, PALGWERN_COLUMNS, read.panel.grid.columns.space.inner);
    CHECK(is_size_at(own, 0, now.repetitions, now.explicit_count));
    read.panel.room.columns.template_counts.components = 65;
    CHECK(is_size_at(palgwern_tables_size_at(&tables, read.panel, PALGWERN_COLUMNS, 0), PALGWERN_CROWDED, 0, 0));
}

/* Columns of 100 with gaps of 10 and a name each, as often as fit in an inner size, and a name after them. */
#define NAMED_COLUMNS(inner) \
    "axis\tc\t" inner "\tmax\tlen\t41200000\nrepeat\tc\tfill\nname\tc\tx\ntrack\tc\tlen\t42c80000\tlen\t42c80000\nend\tc\nname\tc\ty\n"

/* Columns of 1 with a name each. */
#define NAMED_PIXELS "axis\tc\t41200000\tmax\tlen\t00000000\nrepeat\tc\tfill\nname\tc\tx\ntrack\tc\tlen\t3f800000\tlen\t3f800000\nend\tc\n"

static const struct { const char *text; float inner; } named_columns[] = {
    {NAMED_COLUMNS("42c60000"), 99}, {NAMED_COLUMNS("43a00000"), 320}, {NAMED_COLUMNS("447a0000"), 1000}, {NAMED_COLUMNS("00000000"), 0}};

static palgwern_panel read_and_enter(palgwern_tables *t, const char *text) {
    palgwern_panel read = palgwern_tables_read(t, text, strlen(text)).panel;
    read = palgwern_tables_enter(t, read, PALGWERN_COLUMNS, 7, TEXT("z")).panel;
    read = palgwern_tables_enter(t, read, PALGWERN_ROWS, 1, TEXT("x")).panel;
    return palgwern_tables_enter(t, read, PALGWERN_COLUMNS, 1, TEXT("x")).panel;
}

/* One size after the other: each time the panel and all that is lent are those of the sheet with that size and the same entries. */
static void resized_panels(void) {
    size_t count = sizeof named_columns / sizeof *named_columns;
    memset(&tables, 0, sizeof tables);
    memset(&copied, 0, sizeof copied);
    palgwern_panel held = read_and_enter(&tables, named_columns[0].text);
    for (size_t i = 1; i <= 2 * count; i++) {
        palgwern_panel wanted = read_and_enter(&copied, named_columns[i % count].text);
        palgwern_panel_answer a = palgwern_tables_resized(&tables, held, PALGWERN_COLUMNS, bits_of(named_columns[i % count].inner));
        CHECK(a.number == 0 && a.line == 0 && same(a.panel, wanted) && !memcmp(&tables, &copied, sizeof tables));
        held = a.panel;
    }
    palgwern_panel_answer a = palgwern_tables_resized(&tables, held, PALGWERN_ROWS, bits_of(5));
    CHECK(a.number == 0 && a.panel.grid.rows.space.definite == 1 && !memcmp(&tables, &copied, sizeof tables));
}

static int resize_refused(palgwern_panel_answer a, palgwern_panel held, uint32_t number) {
    return a.number == number && a.line == 0 && same(a.panel, held) && !memcmp(&tables, &before, sizeof tables);
}

/* 3, then 4, 8 and 10, with all as it came: 8 for what the sheet writes out, and for that with the direct entries. */
static void refused_resizes(void) {
    palgwern_panel held = read_and_enter(&tables, NAMED_PIXELS);
    size_t n = PALGWERN_STORE_BYTES;
    before = tables;
    for (uint32_t axis = 0; axis < 3; axis++) {
        CHECK(resize_refused(palgwern_resize(held, tables.words, tables.columnstore, 0, tables.rowstore, 0, axis, 0x477fff01), held, PALGWERN_VALUE));
    }
    CHECK(resize_refused(palgwern_resize(held, tables.words, tables.columnstore, 0, tables.rowstore, 0, 2, 0), held, PALGWERN_COUNT));
    CHECK(resize_refused(palgwern_resize(held, tables.words, tables.columnstore, 0, tables.rowstore, 0, 0, bits_of(10001)), held, PALGWERN_CROWDED));
    CHECK(resize_refused(palgwern_resize(held, tables.words, tables.columnstore, 0, tables.rowstore, 0, 0, bits_of(4097)), held, PALGWERN_CROWDED));
    CHECK(resize_refused(palgwern_resize(held, tables.words, tables.columnstore, 0, tables.rowstore, 0, 0, bits_of(4095)), held, PALGWERN_CROWDED));
    CHECK(resize_refused(palgwern_resize(held, tables.words, tables.columnstore, n - 1, tables.rowstore, n, 0, 0), held, PALGWERN_SHORT));
    CHECK(resize_refused(palgwern_resize(held, tables.words, tables.columnstore, n, tables.rowstore, n - 1, 0, 0), held, PALGWERN_SHORT));
    palgwern_panel_answer a = palgwern_tables_resized(&tables, held, PALGWERN_COLUMNS, bits_of(4094));
    CHECK(a.number == 0 && a.panel.grid.columns.entries == PALGWERN_ENTRIES);
}

/* Grid lines beside explicit tracks, and their origin-zero lines: -1 is the last line, 32,767 and -32,768 are held, and an explicit count
 * above 10,000 or a line of no 16 bits is refused before line 0. */
static const struct { int32_t line; uint32_t tracks, number; int32_t converted; uint32_t held; } converted_lines[] = {
    {-1, 3, 0, 3, 0}, {-5, 3, 0, -1, 0}, {1, 3, 0, 0, 0}, {32767, 3, 0, 10000, 1}, {-32768, 3, 0, -10000, 1}, {10001, 0, 0, 10000, 0},
    {10002, 0, 0, 10000, 1}, {-10001, 0, 0, -10000, 0}, {-10002, 0, 0, -10000, 1}, {-20001, 10000, 0, -10000, 0}, {0, 3, 9, 0, 0},
    {0, 10001, 4, 0, 0}, {1, 10001, 4, 0, 0}, {1, 65537, 4, 0, 0}, {32768, 3, 4, 0, 0}, {-32769, 3, 4, 0, 0}, {65536, 3, 4, 0, 0},
};

/* Origin-zero lines beside explicit tracks, and their grid lines. */
static const struct { int32_t line; uint32_t tracks, number; int32_t grid; } grid_lines[] = {
    {3, 3, 0, 4}, {-1, 3, 0, -5}, {0, 0, 0, 1}, {10000, 3, 0, 10001}, {-10000, 10000, 0, -20001}, {10001, 3, 4, 0}, {-10001, 3, 4, 0},
    {0, 10001, 4, 0}, {65536, 3, 4, 0}, {0, 65536, 4, 0},
};

/* Lines of an axis of two tracks before three explicit ones and four after them: the track after each, and its record. */
static const struct { int32_t line; uint32_t number; int32_t track; uint32_t found, place; } line_tracks[] = {
    {-2, 0, 0, 1, 0}, {-1, 0, 1, 1, 2}, {0, 0, 2, 1, 4}, {3, 0, 5, 1, 10}, {7, 0, 9, 1, 18}, {8, 0, 10, 0, 0}, {-3, 0, -1, 0, 0},
    {10000, 0, 10002, 0, 0}, {-10000, 0, -9998, 0, 0}, {10001, 4, 0, 0, 0}, {-10001, 4, 0, 0, 0}, {65536, 4, 0, 0, 0},
};

static void conversions(void) {
    for (size_t i = 0; i < sizeof converted_lines / sizeof *converted_lines; i++) {
        palgwern_conversion_answer a = palgwern_into_origin_zero_line(converted_lines[i].line, converted_lines[i].tracks);
        CHECK(a.number == converted_lines[i].number && a.line == converted_lines[i].converted && a.held == converted_lines[i].held);
    }
    for (size_t i = 0; i < sizeof grid_lines / sizeof *grid_lines; i++) {
        palgwern_line_answer a = palgwern_into_grid_line(grid_lines[i].line, grid_lines[i].tracks);
        CHECK(a.number == grid_lines[i].number && a.line == grid_lines[i].grid);
    }
}

static void tracks(void) {
    const palgwern_track_counts counts = {2, 3, 4}, most = {10000, 10000, 10000};
    for (size_t i = 0; i < sizeof line_tracks / sizeof *line_tracks; i++) {
        palgwern_track_answer track = palgwern_next_track(counts, line_tracks[i].line);
        palgwern_line_record_answer record = palgwern_line_record(counts, line_tracks[i].line);
        CHECK(track.number == line_tracks[i].number && track.track == line_tracks[i].track);
        CHECK(record.number == line_tracks[i].number && record.found == line_tracks[i].found && record.place == line_tracks[i].place);
    }
    for (uint32_t track = 0; track <= 30000; track++) {
        CHECK(palgwern_previous_line(most, track).line == (int32_t)track - 10000 && palgwern_previous_line(most, track).number == 0);
    }
    CHECK(palgwern_previous_line(counts, 0).line == -2 && line_refused(palgwern_previous_line(most, 30001), PALGWERN_COUNT));
    CHECK(line_refused(palgwern_previous_line(most, 65536), PALGWERN_COUNT) && palgwern_line_record(most, 10000).place == 40000);
    for (int field = 0; field < 3; field++) {
        const palgwern_track_counts many = {field == 0 ? 10001 : 0, field == 1 ? 10001 : 0, field == 2 ? 65536 : 0};
        CHECK(line_refused(palgwern_previous_line(many, 0), PALGWERN_COUNT) && palgwern_next_track(many, 0).number == PALGWERN_COUNT);
        CHECK(palgwern_line_record(many, 0).number == PALGWERN_COUNT && palgwern_line_record(many, 0).found == 0);
    }
}

/* The counts of an axis of a panel are those of its records. */
static void counts_of_panel(void) {
    palgwern_sheet_answer read = palgwern_tables_read(&tables, sheet, sheet_bytes);
    palgwern_track_counts counts = palgwern_counts_of(read.panel.grid.columns);
    CHECK(counts.negative == 7 && counts.explicit_count == 20 && counts.positive == 8);
    CHECK(palgwern_line_record(counts, 28).place == 70 && palgwern_line_record(counts, 29).found == 0);
}

/* A cell of forged tables: two placements, the column end and the row end as they are written, and its line. */
static void forge_cell(palgwern_tables *t, uint32_t cell, uint64_t column, uint64_t row, uint64_t line) {
    uint64_t *placements = t->words + PALGWERN_PLACEMENTS_START, *halves = placements + 4 * cell;
    memset(halves, 0, 4 * sizeof *halves);
    halves[0] = column | (uint64_t)(2 + PALGWERN_COLUMNS) << 56;
    halves[2] = row | (uint64_t)(2 + PALGWERN_ROWS) << 56;
    placements[4 * PALGWERN_PLACEMENTS + cell] = line;
}

static int is_land(uint64_t word, uint32_t c1, uint32_t c2, uint32_t r1, uint32_t r2) {
    return palgwern_land_column_start(word) == c1 && palgwern_land_column_end(word) == c2 && palgwern_land_row_start(word) == r1
        && palgwern_land_row_end(word) == r2;
}

static int is_cells(palgwern_cells_answer a, uint32_t number, uint32_t line, uint32_t count) {
    return a.number == number && a.line == line && a.count == count;
}

/* Cells of forged tables, for a span of two, and for a column line 1: the last one lands behind the hole in sparse packing alone. */
static palgwern_tables forged;
static palgwern_grid forged_grid;
static uint64_t lands[PALGWERN_CELLS];

static void cells(void) {
    const uint64_t automatic = 0, two = 3 + (32768 + 2) * 8, first_line = 1 + (32768 + 1) * 8;
    uint64_t untouched[PALGWERN_CELLS];
    palgwern_grid g = palgwern_tables_read(&forged, "", 0).panel.grid;
    memset(untouched, 0xa5, sizeof untouched);
    memcpy(lands, untouched, sizeof lands);
    CHECK(is_cells(palgwern_tables_cells(&forged, g, PALGWERN_SPARSE, lands), 0, 0, 0));
    CHECK(is_cells(palgwern_tables_cells(&forged, g, 2, lands), PALGWERN_COUNT, 0, 0));
    g.columns.size.explicit_count = 3;
    g.placements = 8;
    g.cells = 4;
    forge_cell(&forged, 0, two, automatic, 5);
    forge_cell(&forged, 1, two, automatic, 6);
    forge_cell(&forged, 2, automatic, automatic, 7);
    forge_cell(&forged, 3, automatic, automatic, 9);
    CHECK(is_cells(palgwern_tables_cells(&forged, g, PALGWERN_SPARSE, lands), 0, 0, 4));
    CHECK(is_land(lands[0], 1, 3, 1, 2) && is_land(lands[1], 1, 3, 2, 3) && is_land(lands[2], 3, 4, 2, 3) && is_land(lands[3], 1, 2, 3, 4));
    CHECK(!memcmp(lands + 4, untouched, sizeof lands - 4 * sizeof *lands));
    CHECK(is_cells(palgwern_tables_cells(&forged, g, PALGWERN_DENSE, lands), 0, 0, 4));
    CHECK(is_land(lands[0], 1, 3, 1, 2) && is_land(lands[1], 1, 3, 2, 3) && is_land(lands[2], 3, 4, 1, 2) && is_land(lands[3], 3, 4, 2, 3));
    forge_cell(&forged, 3, first_line, first_line, 9);
    CHECK(is_cells(palgwern_tables_cells(&forged, g, PALGWERN_SPARSE, lands), 0, 0, 4));
    CHECK(is_land(lands[3], 1, 2, 1, 2) && is_land(lands[0], 2, 4, 1, 2));
    memcpy(lands, untouched, sizeof lands);
    forged_grid = g;
    g.columns.size.explicit_count = 1;
    CHECK(is_cells(palgwern_tables_cells(&forged, g, PALGWERN_SPARSE, lands), PALGWERN_UNPLACED, 5, 0));
    g.columns.size.explicit_count = 0;
    CHECK(is_cells(palgwern_tables_cells(&forged, g, PALGWERN_SPARSE, lands), PALGWERN_UNPLACED, 9, 0));
    CHECK(is_cells(palgwern_place_cells(g, forged.words, forged.bytes, forged.columnstore, PALGWERN_STORE_BYTES, forged.rowstore,
        PALGWERN_STORE_BYTES - 1, PALGWERN_SPARSE, lands), PALGWERN_SHORT, 0, 0));
    g.rows.size.explicit_count = PALGWERN_TRACKS + 1;
    CHECK(is_cells(palgwern_tables_cells(&forged, g, PALGWERN_SPARSE, lands), PALGWERN_COUNT, 0, 0));
    CHECK(!memcmp(lands, untouched, sizeof lands));
}

/* Trials: what entering the name on a copy would give, and everything lent as it was. */
#define COLUMN_LINE "track\tc\tauto\t00000000\tauto\t00000000\n"
#define NO_END "\tauto\t-\t0"
#define NAMED_CELL "cell\tnamed\tx\t1\tnamed\tx\t-1" NO_END NO_END "\n"
#define LAST_CELL "cell\tnamed\tx\t-1" NO_END NO_END NO_END "\n"

static palgwern_tables tried;
static palgwern_panel tried_panel;
static int32_t copied_numbers[PALGWERN_PLACEMENT_RUN];
static uint64_t copied_lands[PALGWERN_CELLS];

static void fill_answers(void) {
    memset(numbers, 7, sizeof numbers);
    memset(copied_numbers, 7, sizeof numbers);
    memset(lands, 7, sizeof lands);
    memset(copied_lands, 7, sizeof lands);
}

/* Whether a trial has this number and line, all else in its answer 0, and nothing is written. */
static int trial_refused(palgwern_trial_answer a, uint32_t number, uint32_t line) {
    for (size_t i = 0; i < PALGWERN_PLACEMENT_RUN; i++) if (numbers[i] != 0x07070707) return 0;
    for (size_t i = 0; i < PALGWERN_CELLS; i++) if (lands[i] != 0x0707070707070707) return 0;
    return a.number == number && a.line == line && a.placements == 0 && a.cells == 0;
}

/* A trial beside the entry of the same name in a copy and the answers of that copy. */
static palgwern_trial_answer as_entered(palgwern_trial trial, const char *name) {
    fill_answers();
    before = copied = tried;
    palgwern_trial_answer a = palgwern_tables_try(&tried, tried_panel, trial, name, strlen(name), numbers, lands);
    CHECK(!memcmp(&before, &tried, sizeof tried));
    palgwern_panel_answer e = palgwern_tables_enter(&copied, tried_panel, trial.axis, trial.line, name, strlen(name));
    palgwern_cells_answer c = palgwern_tables_cells(&copied, e.panel.grid, trial.packing, copied_lands);
    uint32_t number = e.number ? e.number : c.number;
    if (number) {
        CHECK(trial_refused(a, number, e.number ? e.line : c.line));
        return a;
    }
    CHECK(a.number == 0 && a.line == 0 && a.cells == c.count && a.placements == e.panel.grid.placements);
    CHECK(is_count(palgwern_tables_placements(&copied, e.panel.grid, 0, copied_numbers), a.placements));
    CHECK(!memcmp(numbers, copied_numbers, sizeof numbers) && !memcmp(lands, copied_lands, sizeof lands));
    return a;
}

/* The start and the end of a placement in the run of a trial. */
static int ends_at(uint32_t index, int32_t start, int32_t end) {
    const int32_t *n = numbers + PALGWERN_PLACEMENT_NUMBERS * index;
    return n[2] == PALGWERN_END_LINE && n[3] == start && n[4] == PALGWERN_END_LINE && n[5] == end;
}

/* Readouts before and after a name, on both axes: a name, an edge of an area by its suffix, and a cell. */
static void trials(void) {
    static const palgwern_trial third = {PALGWERN_COLUMNS, 3, PALGWERN_SPARSE}, second = {PALGWERN_COLUMNS, 2, PALGWERN_DENSE};
    static const palgwern_trial row = {PALGWERN_ROWS, 1, PALGWERN_SPARSE}, first = {PALGWERN_COLUMNS, 1, PALGWERN_SPARSE};
    palgwern_sheet_answer read = palgwern_tables_read(&tried,
        TEXT("area\ta\t1\t2\t2\t4\nname\tc\tx\n" COLUMN_LINE COLUMN_LINE COLUMN_LINE "place\tc\tnamed\tx\t1\tnamed\tx\t2\n"
             "place\tr\tnamed\ta\t0\tnamed\ta\t0\n" NAMED_CELL LAST_CELL "place\tc\tnamed\ta\t0\tnamed\ta\t0\n"));
    tried_panel = read.panel;
    CHECK(read.number == 0 && tried_panel.grid.placements == 7 && tried_panel.grid.cells == 2);
    CHECK(is_count(palgwern_tables_placements(&tried, tried_panel.grid, 0, numbers), 7));
    CHECK(ends_at(0, 1, 5) && ends_at(1, 1, 2) && ends_at(6, 2, 4));
    CHECK(is_cells(palgwern_tables_cells(&tried, tried_panel.grid, PALGWERN_SPARSE, lands), 0, 0, 2));
    CHECK(is_land(lands[0], 1, 2, 1, 2) && is_land(lands[1], 1, 2, 2, 3));
    palgwern_trial_answer a = as_entered(third, "x");
    CHECK(a.placements == 7 && a.cells == 2 && ends_at(0, 1, 3) && ends_at(1, 1, 2) && ends_at(6, 2, 4));
    CHECK(is_land(lands[0], 1, 3, 1, 2) && is_land(lands[1], 3, 4, 1, 2) && lands[2] == 0x0707070707070707);
    as_entered(second, "x");
    CHECK(ends_at(0, 1, 2) && is_land(lands[0], 1, 2, 1, 2) && is_land(lands[1], 2, 3, 1, 2));
    as_entered(first, "a-start");
    CHECK(ends_at(0, 1, 5) && ends_at(6, 1, 4));
    as_entered(row, "a-end");
    CHECK(ends_at(1, 1, 1) && ends_at(6, 2, 4));
    as_entered(row, "x");
    CHECK(ends_at(0, 1, 5));
}

/* A trial of `x` with so many bytes of both stores. */
static palgwern_trial_answer with_stores(size_t column_bytes, size_t row_bytes, palgwern_trial trial) {
    return palgwern_try_name(tried_panel, tried.words, tried.bytes, tried.columnstore, column_bytes, tried.rowstore, row_bytes, trial,
        (const uint8_t *)"x", 1, numbers, lands);
}

/* A panel without placements: a trial has none either, and is no refusal. */
static void empty_trial(void) {
    palgwern_panel empty = palgwern_tables_read(&copied, "", 0).panel;
    fill_answers();
    palgwern_trial_answer a = palgwern_tables_try(&copied, empty, (palgwern_trial){PALGWERN_ROWS, 1, PALGWERN_DENSE}, TEXT("x"), numbers, lands);
    CHECK(trial_refused(a, 0, 0));
}

/* Each refusal, in its order; with `x` on the last line too the cell of line 9 would have no place. */
static void refused_trials(void) {
    static const palgwern_trial good = {PALGWERN_COLUMNS, 3, PALGWERN_SPARSE}, last = {PALGWERN_COLUMNS, 4, PALGWERN_DENSE};
    static const palgwern_trial faulty[] = {{2, 1, PALGWERN_SPARSE}, {PALGWERN_ROWS, 0, PALGWERN_SPARSE},
        {PALGWERN_ROWS, PALGWERN_ENTERED_LINE + 1, PALGWERN_DENSE}, {PALGWERN_COLUMNS, 1, 2}};
    size_t n = PALGWERN_STORE_BYTES;
    fill_answers();
    before = tried;
    for (size_t i = 0; i < sizeof faulty / sizeof *faulty; i++) {
        CHECK(trial_refused(palgwern_tables_try(&tried, tried_panel, faulty[i], TEXT("x"), numbers, lands), PALGWERN_COUNT, 0));
        CHECK(trial_refused(palgwern_tables_try(&tried, tried_panel, faulty[i], TEXT("not a name"), numbers, lands), PALGWERN_NAME, 0));
        CHECK(trial_refused(with_stores(0, 0, faulty[i]), PALGWERN_COUNT, 0));
    }
    CHECK(trial_refused(palgwern_tables_try(&tried, tried_panel, good, TEXT(""), numbers, lands), PALGWERN_NAME, 0));
    CHECK(trial_refused(with_stores(n - 1, n, good), PALGWERN_SHORT, 0) && trial_refused(with_stores(n, n - 1, good), PALGWERN_SHORT, 0));
    CHECK(!memcmp(&before, &tried, sizeof tried));
    CHECK(as_entered(last, "x").number == PALGWERN_UNPLACED && trial_refused(as_entered(last, "x"), PALGWERN_UNPLACED, 9));
}

/* An axis with all entries that it can have: 8, before 10 and 15; with one left a trial is answered. */
static void crowded_trials(void) {
    static const palgwern_trial last = {PALGWERN_COLUMNS, 4, PALGWERN_SPARSE};
    palgwern_panel held = tried_panel;
    while (tried_panel.grid.columns.entries < PALGWERN_ENTRIES) {
        if (tried_panel.grid.columns.entries == PALGWERN_ENTRIES - 1) CHECK(as_entered(last, "y").number == 0);
        tried_panel = palgwern_tables_enter(&tried, tried_panel, PALGWERN_COLUMNS, 1, TEXT("y")).panel;
    }
    CHECK(as_entered(last, "x").number == PALGWERN_CROWDED);
    fill_answers();
    CHECK(trial_refused(with_stores(0, 0, last), PALGWERN_CROWDED, 0));
    CHECK(as_entered((palgwern_trial){PALGWERN_ROWS, 1, PALGWERN_SPARSE}, "x").number == 0);
    tried_panel = held;
}

/* A panel that is edited through a history: x on line 1 of one column, and a placement on the second line of x. */
#define SECOND_X COLUMN_LINE "place\tc\tnamed\tx\t2\tauto\t-\t0\n"
static const char recorded_sheet[] = "area\tb\t5\t6\t1\t2\nname\tc\tx\n" SECOND_X;
static palgwern_tables recorded_tables, tables_before;
static uint8_t lines[128], lines_before[sizeof lines];
static palgwern_recorded recorded;

static void fill_lines(size_t bytes) {
    memset(lines, 'Z', sizeof lines);
    recorded = (palgwern_recorded){recorded_sheet, sizeof recorded_sheet - 1, no_panel, {0, 0}, lines, bytes};
    recorded.panel = palgwern_tables_read(&recorded_tables, recorded_sheet, sizeof recorded_sheet - 1).panel;
    CHECK(recorded.panel.grid.placements == 1);
}

static int is_step(palgwern_edit_answer a, uint64_t step, uint64_t last) {
    return a.number == 0 && a.line == 0 && a.earlier == 0 && a.later == 0 && a.history.step == step && a.history.last == last;
}

/* The history has this text first, and what lies past it is as it was. */
static int has_lines(const char *text) {
    size_t length = strlen(text);
    for (size_t i = length; i < sizeof lines; i++) if (lines[i] != 'Z') return 0;
    return !memcmp(lines, text, length);
}

static int starts_at(uint32_t index, int32_t line) {
    palgwern_placement_answer p = palgwern_tables_placement(&recorded_tables, recorded.panel.grid, index);
    return p.number == 0 && p.startkind == PALGWERN_END_LINE && p.startnumber == line;
}

/* The panel of a step is the one that a sheet with its edits describes; of the stores the names count. */
static int as_read(const char *text, size_t bytes) {
    palgwern_panel read = palgwern_tables_read(&copied, text, bytes).panel;
    return same(read, recorded.panel) && !memcmp(copied.words, recorded_tables.words, sizeof copied.words) &&
        !memcmp(copied.bytes, recorded_tables.bytes, sizeof copied.bytes) &&
        !memcmp(copied.columnstore, recorded_tables.columnstore, read.room.columns.used);
}

/* An edit of each kind, each step brought back, and an edit that drops the later ones. */
static void edits(void) {
    fill_lines(sizeof lines);
    CHECK(starts_at(0, 3) && is_step(palgwern_recorded_edit(&recorded, &recorded_tables, TEXT("area\ta\t1\t2\t1\t3")), 1, 1));
    CHECK(recorded.panel.grid.areas == 2 && recorded.panel.grid.columns.size.explicit_count == 2 && recorded.panel.grid.rows.size.explicit_count == 5);
    CHECK(as_read(TEXT("area\tb\t5\t6\t1\t2\narea\ta\t1\t2\t1\t3\nname\tc\tx\n" SECOND_X)));
    CHECK(is_step(palgwern_recorded_edit(&recorded, &recorded_tables, TEXT("track\tc\tauto\t00000000\tauto\t00000000")), 2, 2));
    CHECK(as_read(TEXT("area\tb\t5\t6\t1\t2\narea\ta\t1\t2\t1\t3\nname\tc\tx\n" SECOND_X COLUMN_LINE)) && starts_at(0, 4));
    CHECK(is_step(palgwern_recorded_edit_name(&recorded, &recorded_tables, PALGWERN_COLUMNS, 2, TEXT("x")), 3, 3) && starts_at(0, 2));
    CHECK(recorded.panel.grid.columns.entries == 2 && recorded.panel.room.columns.used == 2);
    static const char held[] = "1\tarea\ta\t1\t2\t1\t3\n2\ttrack\tc\tauto\t00000000\tauto\t00000000\n3\tenter\tc\t2\tx\n";
    CHECK(has_lines(held));
    CHECK(is_step(palgwern_recorded_recall(&recorded, &recorded_tables, 0), 0, 3) && as_read(recorded_sheet, sizeof recorded_sheet - 1) && starts_at(0, 3));
    CHECK(is_step(palgwern_recorded_recall(&recorded, &recorded_tables, 3), 3, 3) && starts_at(0, 2));
    CHECK(is_step(palgwern_recorded_recall(&recorded, &recorded_tables, 1), 1, 3) && recorded.panel.grid.areas == 2 && has_lines(held));
    CHECK(is_step(palgwern_recorded_edit(&recorded, &recorded_tables, TEXT("place\tr\tline\t-\t2\tauto\t-\t0")), 2, 2) && starts_at(1, 2));
    CHECK(!memcmp(lines, TEXT("1\tarea\ta\t1\t2\t1\t3\n2\tplace\tr\tline\t-\t2\tauto\t-\t0\n")));
}

/* A refusal leaves the tables, the lines, the panel and the step as they were. */
static int edit_refused(palgwern_edit_answer a, uint32_t number, uint32_t line) {
    return a.number == number && a.line == line && (a.number == PALGWERN_OVERLAP || (a.earlier == 0 && a.later == 0)) &&
        same(a.panel, recorded.panel) && a.history.step == recorded.history.step && a.history.last == recorded.history.last &&
        !memcmp(&tables_before, &recorded_tables, sizeof tables_before) && !memcmp(lines_before, lines, sizeof lines);
}

static const struct { const char *text; uint32_t number; } refused_edits[] = {
    {"", PALGWERN_UNREAD}, {"name\tc\ty", PALGWERN_UNREAD}, {"enter\tc\t01\tx", PALGWERN_UNREAD}, {"enter\tc\t1\tx\n", PALGWERN_UNREAD},
    {"area\t\t1\t2\t3\t4", PALGWERN_NAME}, {"enter\tc\t0\t", PALGWERN_NAME}, {"track\tc\tlen\t80000000\tauto\t00000000", PALGWERN_VALUE},
    {"place\tc\tline\t-\t32768\tauto\t-\t0", PALGWERN_COUNT}, {"enter\tr\t20001\tx", PALGWERN_COUNT}, {"area\tc\t2\t2\t3\t4", PALGWERN_AREA},
    {"area\tb\t1\t2\t3\t4", PALGWERN_TWICE}, {"place\tr\tauto\t-\t0\tauto\t-\t0", PALGWERN_HISTORY_FULL}};

/* Each refusal in its order, at step 1 with one step after it and no room for another line. */
static void refused_history(void) {
    fill_lines(sizeof "1\tenter\tc\t2\tx\n2\tenter\tr\t1\ty");
    CHECK(is_step(palgwern_recorded_edit(&recorded, &recorded_tables, TEXT("enter\tc\t2\tx")), 1, 1));
    CHECK(is_step(palgwern_recorded_edit_name(&recorded, &recorded_tables, PALGWERN_ROWS, 1, TEXT("y")), 2, 2));
    CHECK(is_step(palgwern_recorded_recall(&recorded, &recorded_tables, 1), 1, 2));
    tables_before = recorded_tables;
    memcpy(lines_before, lines, sizeof lines);
    for (size_t i = 0; i < sizeof refused_edits / sizeof *refused_edits; i++)
        CHECK(edit_refused(palgwern_recorded_edit(&recorded, &recorded_tables, refused_edits[i].text, strlen(refused_edits[i].text)), refused_edits[i].number, 0));
    palgwern_edit_answer shared = palgwern_recorded_edit(&recorded, &recorded_tables, TEXT("area\tc\t5\t7\t1\t9"));
    CHECK(edit_refused(shared, PALGWERN_OVERLAP, 0) && shared.earlier == 1 && shared.later == 2);
    CHECK(edit_refused(palgwern_recorded_edit_name(&recorded, &recorded_tables, 2, 1, TEXT("x")), PALGWERN_COUNT, 0));
    CHECK(edit_refused(palgwern_recorded_edit_name(&recorded, &recorded_tables, 2, 0, TEXT("")), PALGWERN_NAME, 0));
    CHECK(edit_refused(palgwern_recorded_edit_name(&recorded, &recorded_tables, PALGWERN_ROWS, 0, TEXT("x")), PALGWERN_COUNT, 0));
    CHECK(edit_refused(palgwern_recorded_recall(&recorded, &recorded_tables, 3), PALGWERN_NO_STEP, 0));
    CHECK(edit_refused(palgwern_recorded_recall(&recorded, &recorded_tables, UINT64_MAX), PALGWERN_NO_STEP, 0));
}

/* A short store, a sheet that is refused, a history that no edit wrote. */
static void refused_for_others(void) {
    palgwern_recorded held = recorded;
    uint8_t *c = recorded_tables.columnstore, *r = recorded_tables.rowstore;
    const uint8_t *own = (const uint8_t *)recorded_sheet, *text = (const uint8_t *)"enter\tr\t1\tz";
    size_t n = PALGWERN_STORE_BYTES, bytes = sizeof recorded_sheet - 1;
    CHECK(edit_refused(palgwern_edit(own, bytes, recorded.panel, recorded.history, recorded_tables.words, recorded_tables.bytes, c, n - 1, r, n,
                           lines, 0, text, 11), PALGWERN_NO_STEP, 0));
    CHECK(edit_refused(palgwern_edit(own, bytes, recorded.panel, recorded.history, recorded_tables.words, recorded_tables.bytes, c, n - 1, r, n,
                           lines, recorded.lines_bytes, text, 11), PALGWERN_SHORT, 0));
    CHECK(edit_refused(palgwern_recall(own, bytes, recorded.panel, recorded.history, recorded_tables.words, recorded_tables.bytes, c, n, r, n - 1,
                           lines, recorded.lines_bytes, 9), PALGWERN_SHORT, 0));
    recorded.history.step = recorded.history.last = 3;
    CHECK(edit_refused(palgwern_recorded_edit(&recorded, &recorded_tables, TEXT("")), PALGWERN_NO_STEP, 0));
    CHECK(edit_refused(palgwern_recorded_recall(&recorded, &recorded_tables, 3), PALGWERN_NO_STEP, 0));
    recorded.sheet = "name\tc\tx\nnothing\n";
    recorded.sheet_bytes = strlen((const char *)recorded.sheet);
    CHECK(edit_refused(palgwern_recorded_edit(&recorded, &recorded_tables, TEXT("")), PALGWERN_UNREAD, 2));
    CHECK(edit_refused(palgwern_recorded_recall(&recorded, &recorded_tables, 0), PALGWERN_UNREAD, 2));
    recorded = held;
    CHECK(is_step(palgwern_recorded_recall(&recorded, &recorded_tables, 2), 2, 2));
}

/* ---- placements and implicit tracks by argument */

/* `place` lines, and the placements with the same ends and the bytes of their names, those that are not read among them. */
static const struct { const char *line; palgwern_given given; const char *names; } given_lines[] = {
    {"place\tc\tnamed\tx\t-1\tspan\t-\t2\n", {0, PALGWERN_END_NAMED, -1, 1, PALGWERN_END_SPAN, 2, 0}, "x"},
    {"place\tr\tline\t-\t-2\tnamed\ta\t0\n", {1, PALGWERN_END_LINE, -2, 0, PALGWERN_END_NAMED, 0, 1}, "a"},
    {"place\tc\tauto\t-\t0\tnspan\tx\t2\n", {0, PALGWERN_END_AUTO, -99999, 2, PALGWERN_END_NSPAN, 2, 1}, " \nx"},
    {"place\tc\tnamed\ta\t0\tnamed\tx\t1\n", {0, PALGWERN_END_NAMED, 0, 1, PALGWERN_END_NAMED, 1, 1}, "ax"},
    {"place\tr\tline\t-\t-32768\tspan\t-\t65535\n", {1, PALGWERN_END_LINE, -32768, 0, PALGWERN_END_SPAN, 65535, 0}, ""},
    {"place\tr\tnspan\ta\t65535\tline\t-\t32767\n", {1, PALGWERN_END_NSPAN, 65535, 1, PALGWERN_END_LINE, 32767, 40},
     "a----------------------------------------"},
};

enum { GIVEN_LINES = sizeof given_lines / sizeof *given_lines };

#define GIVEN_SHEET "area\ta\t1\t2\t2\t4\nname\tc\tx\n" COLUMN_LINE COLUMN_LINE COLUMN_LINE "place\tc\tnamed\tx\t1\tnamed\tx\t2\n"

static palgwern_tables beside;
static palgwern_panel beside_panel;

/* Whether placements by argument have this number and index, all else in the answer 0, and nothing is written. */
static int given_refused(palgwern_given_answer a, uint32_t number, uint32_t index) {
    for (size_t i = 0; i < PALGWERN_PLACEMENT_RUN; i++) if (numbers[i] != 0x07070707) return 0;
    return a.number == number && a.index == index && a.count == 0;
}

/* Placements by argument beside the same panel. */
static palgwern_given_answer give(const palgwern_given *given, size_t length, const char *text) {
    fill_answers();
    before = beside;
    palgwern_given_answer a = palgwern_tables_given(&beside, beside_panel.grid, given, length, text, strlen(text), numbers);
    CHECK(!memcmp(&before, &beside, sizeof beside));
    return a;
}

/* Each gets what the last line of the sheet gets, by itself and among the others. */
static void given_placements(void) {
    palgwern_given given[GIVEN_LINES];
    palgwern_placement_answer wanted[GIVEN_LINES];
    char text[256] = "", with_line[512];
    beside_panel = palgwern_tables_read(&beside, TEXT(GIVEN_SHEET)).panel;
    for (size_t i = 0; i < GIVEN_LINES; i++) {
        snprintf(with_line, sizeof with_line, "%s%s", GIVEN_SHEET, given_lines[i].line);
        palgwern_sheet_answer read = palgwern_tables_read(&copied, with_line, strlen(with_line));
        CHECK(read.number == 0 && read.panel.grid.placements == 2);
        wanted[i] = palgwern_tables_placement(&copied, read.panel.grid, 1);
        given[i] = given_lines[i].given;
        strcat(text, given_lines[i].names);
        palgwern_given_answer a = give(given + i, 1, given_lines[i].names);
        CHECK(a.number == 0 && a.index == 0 && a.count == 1 && !memcmp(numbers, wanted + i, sizeof *wanted));
        CHECK(numbers[PALGWERN_PLACEMENT_NUMBERS] == 0x07070707);
    }
    palgwern_given_answer a = give(given, GIVEN_LINES, text);
    CHECK(a.number == 0 && a.index == 0 && a.count == GIVEN_LINES && !memcmp(numbers, wanted, sizeof wanted));
    CHECK(numbers[PALGWERN_PLACEMENT_NUMBERS * GIVEN_LINES] == 0x07070707 && given_refused(give(given, 0, ""), 0, 0));
}

/* The second of two is refused: 2 for a used name that is none, else 4. */
static void refused_given(void) {
    static const palgwern_given good = {1, PALGWERN_END_LINE, 1, 0, PALGWERN_END_SPAN, 1, 0};
    static const palgwern_given counts[] = {
        {2, PALGWERN_END_LINE, 1, 0, PALGWERN_END_SPAN, 1, 0}, {0, 5, 0, 0, PALGWERN_END_AUTO, 0, 0}, {0, PALGWERN_END_AUTO, 0, 0, 5, 0, 0},
        {0, PALGWERN_END_LINE, 32768, 0, PALGWERN_END_AUTO, 0, 0}, {0, PALGWERN_END_AUTO, 0, 0, PALGWERN_END_LINE, -32769, 0},
        {0, PALGWERN_END_NAMED, 32768, 1, PALGWERN_END_AUTO, 0, 0}, {0, PALGWERN_END_AUTO, 0, 0, PALGWERN_END_NAMED, -32769, 1},
        {0, PALGWERN_END_SPAN, 65536, 0, PALGWERN_END_AUTO, 0, 0}, {0, PALGWERN_END_AUTO, 0, 0, PALGWERN_END_SPAN, -1, 0},
        {0, PALGWERN_END_NSPAN, 65536, 1, PALGWERN_END_AUTO, 0, 0}, {0, PALGWERN_END_AUTO, 0, 0, PALGWERN_END_NSPAN, -1, 1}};
    static const palgwern_given unnamed[] = {
        {2, PALGWERN_END_NAMED, 32768, 0, PALGWERN_END_AUTO, 0, 0}, {0, PALGWERN_END_AUTO, 0, 0, PALGWERN_END_NSPAN, -1, 0},
        {0, PALGWERN_END_NAMED, 1, 33, PALGWERN_END_AUTO, 0, 0}, {0, PALGWERN_END_LINE, 1, 32, PALGWERN_END_NAMED, 1, 2}};
    static const char text[] = "--------------------------------\x7f-";
    for (size_t i = 0; i < sizeof counts / sizeof *counts; i++) {
        palgwern_given two[] = {good, counts[i]};
        CHECK(given_refused(give(two, 2, "x"), PALGWERN_COUNT, 1) && given_refused(give(two + 1, 1, "x"), PALGWERN_COUNT, 0));
    }
    for (size_t i = 0; i < sizeof unnamed / sizeof *unnamed; i++) {
        palgwern_given two[] = {good, unnamed[i]};
        CHECK(given_refused(give(two, 2, text), PALGWERN_NAME, 1));
    }
}

/* The call as a whole: 8, then 10 for missing names, before any placement; a short store after them all. */
static void refused_runs(void) {
    static palgwern_given many[PALGWERN_PLACEMENTS + 1];
    size_t n = PALGWERN_STORE_BYTES;
    for (size_t i = 0; i <= PALGWERN_PLACEMENTS; i++) many[i] = given_lines[0].given;
    CHECK(given_refused(give(many, PALGWERN_PLACEMENTS + 1, ""), PALGWERN_CROWDED, 0));
    many[0].axis = 2;
    CHECK(given_refused(give(many, 2, "x"), PALGWERN_SHORT, 0) && given_refused(give(many, 2, "xx"), PALGWERN_COUNT, 0));
    fill_answers();
    CHECK(given_refused(palgwern_resolve_given(beside_panel.grid, beside.words, beside.bytes, beside.columnstore, n - 1, beside.rowstore, n,
        many, 1, (const uint8_t *)"x", 1, numbers), PALGWERN_COUNT, 0));
    CHECK(given_refused(palgwern_resolve_given(beside_panel.grid, beside.words, beside.bytes, beside.columnstore, n, beside.rowstore, n - 1,
        many + 1, 1, (const uint8_t *)"x", 1, numbers), PALGWERN_SHORT, 0));
    char text[PALGWERN_PLACEMENTS + 1] = "";
    memset(text, 'x', PALGWERN_PLACEMENTS);
    palgwern_given_answer a = give(many + 1, PALGWERN_PLACEMENTS, text);
    CHECK(a.number == 0 && a.count == PALGWERN_PLACEMENTS);
}

/* The grid of the sheet with that `extra` line; all that is lent is the same, in stores that held nothing before. */
static void implicit_tracks(void) {
    memset(&copied, 0, sizeof copied);
    palgwern_sheet_answer read = palgwern_tables_read(&copied, TEXT(GIVEN_SHEET "extra\tc\t2\t10000\n"));
    palgwern_grid_answer wide = palgwern_with_implicit(beside_panel.grid, PALGWERN_COLUMNS, 2, 10000);
    CHECK(read.number == 0 && wide.number == 0 && same_grids(wide.grid, read.panel.grid) && !memcmp(&copied, &beside, sizeof copied));
    static const uint32_t faulty[][3] = {{2, 0, 0}, {PALGWERN_ROWS, 10001, 0}, {PALGWERN_COLUMNS, 0, 10001}};
    for (size_t i = 0; i < sizeof faulty / sizeof *faulty; i++) {
        palgwern_grid_answer a = palgwern_with_implicit(wide.grid, faulty[i][0], faulty[i][1], faulty[i][2]);
        CHECK(a.number == PALGWERN_COUNT && same_grids(a.grid, wide.grid));
    }
}

/* The calls, one for each number. */
static void *call(void *number) {
    switch (*(int *)number) {
    case 0: break;
    case 1: palgwern_tables_read(&tables, sheet, sheet_bytes); break;
    case 2: palgwern_tables_enter(&tables, panel, 1, 1, TEXT("a")); break;
    case 3: palgwern_explicit_size(panel.grid, 0); break;
    case 4: palgwern_line_count(panel.grid, 0); break;
    case 5: palgwern_record_count(panel.grid, 0); break;
    case 6: palgwern_tables_placement(&tables, panel.grid, 0); palgwern_tables_placement(&tables, panel.grid, 1); break;
    case 7: palgwern_tables_name(&tables, panel.grid, 0, 3, 0); break;
    case 8: palgwern_tables_records(&tables, panel.grid, 0, 0, all, sizeof all / sizeof *all); break;
    case 9: palgwern_tables_placements(&tables, panel.grid, 0, numbers); break;
    case 10: palgwern_tables_names(&tables, panel.grid, 1, names); break;
    case 11: palgwern_tables_display(&tables, sheet, sheet_bytes); break;
    case 12: palgwern_tables_nearest_line(&tables, panel.grid, 0, 0); break;
    case 13: palgwern_tables_within(&listed, listed_grid, 0, 0, 0, hits); break;
    case 14: palgwern_tables_around(&listed, listed_grid, 0, 1, hits); break;
    case 15: palgwern_tables_resize(&tables, panel.grid, 0); break;
    case 16: palgwern_into_origin_zero_line(-1, 3); break;
    case 17: palgwern_into_grid_line(-1, 3); break;
    case 18: palgwern_next_track(palgwern_counts_of(panel.grid.columns), 0); break;
    case 19: palgwern_previous_line(palgwern_counts_of(panel.grid.columns), 0); break;
    case 20: palgwern_line_record(palgwern_counts_of(panel.grid.columns), 0); break;
    case 21: palgwern_layout(); break;
    case 22: palgwern_tables_size_at(&tables, panel, 0, 0); break;
    case 23: palgwern_tables_drawn_area(&tables, panel.grid, 0, "gamma", 5); break;
    case 24: palgwern_tables_named_area(&tables, panel.grid, 0, "gamma", 5); break;
    case 25: palgwern_tables_cells(&forged, forged_grid, PALGWERN_DENSE, lands); break;
    case 26: palgwern_tables_try(&tried, tried_panel, (palgwern_trial){PALGWERN_ROWS, 1, PALGWERN_DENSE}, TEXT("x"), numbers, lands); break;
    case 27: palgwern_recorded_edit(&recorded, &recorded_tables, TEXT("enter\tc\t1\tz")); break;
    case 28: palgwern_recorded_edit_name(&recorded, &recorded_tables, 0, 1, TEXT("z")); break;
    case 29: palgwern_recorded_recall(&recorded, &recorded_tables, 1); break;
    case 30: palgwern_tables_given(&tables, panel.grid, &given_lines[0].given, 1, TEXT("x"), numbers); break;
    case 31: palgwern_with_implicit(panel.grid, 0, 1, 1); break;
    case 32: palgwern_tables_resized(&tables, panel, 0, 0); break;
    }
    return NULL;
}

/* How many bytes of a painted stack a call changes, with those that any thread does. */
static size_t stack_of(int number) {
    size_t size = 1 << 20, untouched = 0;
    uint8_t *stack = mmap(NULL, size, PROT_READ | PROT_WRITE, MAP_PRIVATE | MAP_ANONYMOUS, -1, 0);
    if (stack == MAP_FAILED) abort();
    memset(stack, 0xa5, size);
    pthread_attr_t attributes;
    pthread_t thread;
    if (pthread_attr_init(&attributes) || pthread_attr_setstack(&attributes, stack, size)) abort();
    if (pthread_create(&thread, &attributes, call, &number) || pthread_join(thread, NULL)) abort();
    while (untouched < size && stack[untouched] == 0xa5) untouched++;
    munmap(stack, size);
    return size - untouched;
}

static void stacks(void) {
    static const char *const names[] = {"", "read_sheet", "enter_name", "explicit_size", "line_count", "record_count",
        "resolve_placement", "line_name", "records", "resolve_placements", "line_names", "display_sheet", "nearest_line",
        "placements_within", "placements_around", "least_resize", "into_origin_zero_line", "into_grid_line", "next_track",
        "previous_line", "line_record", "layout", "size_at",
        "drawn_area", "named_area", "place_cells", "try_name", "edit", "edit_name", "recall", "resolve_given", "with_implicit", "resize"};
    static const size_t kibibytes[] = {0, 448, 48, 48, 48, 48, 48, 48, 48, 160, 160, 448, 48, 160, 160, 48, 48, 48, 48, 48, 48, 48, 48, 48, 48, 160, 448, 448, 448, 448, 448, 48, 448};
    size_t none = stack_of(0);
    printf("stack in bytes:");
    for (size_t i = 1; i < sizeof names / sizeof *names; i++) {
        size_t used = stack_of((int)i) - none;
        printf(" %s %zu", names[i], used);
        CHECK(used <= kibibytes[i] * 1024);
    }
    printf("\n");
}

int main(int count, char **words) {
    FILE *file = count == 2 ? fopen(words[1], "rb") : NULL;
    if (!file) { puts("usage: tests LAYOUT_SHEET"); return 2; }
    sheet_bytes = fread(sheet, 1, sizeof sheet, file);
    fclose(file);
    layout();
    answers();
    records();
    nearest();
    placements();
    many_placements();
    lists();
    marks();
    line_names(PALGWERN_COLUMNS);
    refusals();
    display();
    entries();
    placements();
    line_names(PALGWERN_ROWS);
    cells();
    trials();
    empty_trial();
    refused_trials();
    crowded_trials();
    edits();
    refused_history();
    refused_for_others();
    given_placements();
    refused_given();
    refused_runs();
    implicit_tracks();
    stacks();
    resizes();
    sizes();
    resized_panels();
    refused_resizes();
    areas();
    refused_areas();
    conversions();
    tracks();
    counts_of_panel();
    CHECK(palgwern_layout() == PALGWERN_LAYOUT);
    puts(failed ? "C: failed" : "C: right");
    return failed;
}
