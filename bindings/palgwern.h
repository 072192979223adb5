/* Palgwern's calls for C: a panel sheet read, names entered or tried, edits recalled, placements, line names and
 * track records answered.
 *
 * Link target/staticlib/libpalgwern.a (x86-64 Linux), which `tools/make palgwern` writes. Every call is proved to end and to
 * answer as its contract in crates/palgwern/src says, whatever the panel and what is lent hold. What C must ensure:
 *
 * - stack: 512 KiB of room for palgwern_read_sheet, palgwern_display_sheet, palgwern_try_name, palgwern_edit, palgwern_edit_name,
 *   palgwern_recall, palgwern_resize and palgwern_resolve_given, 192 KiB for palgwern_line_names, 128 KiB for
 *   palgwern_placements_within, palgwern_placements_around and palgwern_place_cells, 64 KiB for each other call (`bindings/stack` bounds
 *   each from the archive's instructions, and `bindings/test` measures them);
 * - memory: everything that is lent is initialized, whatever it holds, and not null; an array has the length that is stated here,
 *   a pointer with a length has so many elements, and one of length 0 still points somewhere;
 * - no overlap: what a call may write (no `const`) is part of nothing else that is lent to it, and nobody else reads or writes it
 *   meanwhile. There is no other state: calls on different panels can run at the same time;
 * - on the panel: hand each edit the panel that the last one gave, each other call its `grid`, and the words, bytes and stores that
 *   the edit left. Others are answered too, but then they describe nothing.
 *
 * A call that refuses leaves everything lent as it was.
 */
#ifndef PALGWERN_H
#define PALGWERN_H
#include <stddef.h>
#include <stdint.h>
#ifdef __cplusplus
extern "C" {
#endif

/* The version of this header, of palgwern.rs and of the package; docs/CHANGES.md has it as a heading. */
#define PALGWERN_VERSION "0.1.0"

/* Refusals, by their numbers and words in the table of refusals; 0 is none. */
enum palgwern_refusal {
    PALGWERN_UNREAD = 1,    /* unread: sheet too long, or a line of no form */
    PALGWERN_NAME = 2,      /* name: outside the name range */
    PALGWERN_VALUE = 3,     /* value: a size outside its range; also an axis without what a least resize is asked of */
    PALGWERN_COUNT = 4,     /* count: a whole number outside its range; also a number that is no axis, placement or record */
    PALGWERN_AREA = 5,      /* area: an area start not below its end */
    PALGWERN_TWICE = 6,     /* twice: an area name or axis record again */
    PALGWERN_LATE = 7,      /* late: record earlier in kind than one before it */
    PALGWERN_CROWDED = 8,   /* crowded: one more would pass a panel limit */
    PALGWERN_ZERO_LINE = 9, /* zero line: line 0, which no placement is around and which is no grid line */
    PALGWERN_SHORT = 10,    /* short: lent records, item bytes or a line-name store too short */
    PALGWERN_INDEFINITE = 11, /* indefinite: a track or gutter with no definite size */
    PALGWERN_OVERLAP = 12,  /* overlap: an area that shares a cell with an earlier one */
    PALGWERN_UNEQUAL = 13,  /* unequal: a row of a picture that is not as wide as the first one */
    PALGWERN_BROKEN = 14,   /* broken: a picture in which the cells of a name form no filled rectangle */
    PALGWERN_UNPLACED = 15, /* unplaced: a cell for which no place is free, or that leaves the columns or rows */
    PALGWERN_HISTORY_FULL = 16, /* history full: an edit whose line does not fit in the bytes that are free of a history */
    PALGWERN_NO_STEP = 17   /* no step: a step above the last of a history, or a history that no edit wrote */
};

/* Limits, by document 01. */
enum palgwern_limit {
    PALGWERN_SHEET_BYTES = 32768,     /* bytes of a sheet */
    PALGWERN_NAME_BYTES = 32,         /* bytes of a name, codes 33 to 126 */
    PALGWERN_COMPONENTS = 64,         /* components of an axis */
    PALGWERN_REPEAT_TRACKS = 32,      /* tracks in a repeat */
    PALGWERN_SPARES = 64,             /* spare sizes of an axis */
    PALGWERN_AREAS = 64,              /* drawn areas, those of a picture too */
    PALGWERN_ROW_WORDS = 10000,       /* words of a row of a picture */
    PALGWERN_PLACEMENTS = 256,        /* `place` lines, and cells among them: the tables hold two placements for each cell */
    PALGWERN_CELL_SPAN = 32,          /* a plain span of a cell is 1 to 32 */
    PALGWERN_ENTRIES = 4096,          /* name entries of an axis, repeats written out */
    PALGWERN_ENTERED_LINE = 20000,    /* an entered line is 1 to 20,000 */
    PALGWERN_TRACKS = 10000,          /* explicit tracks, and each implicit count */
    PALGWERN_LARGEST_RECORDS = 60001, /* records of the largest axis */
    PALGWERN_RECORD_WORDS = 3,        /* words of a record */
    PALGWERN_PLACEMENT_NUMBERS = 8    /* numbers of a resolved placement in a run */
};

/* Lengths of the arrays that are lent, and of the regions that they are made of. */
enum palgwern_length {
    PALGWERN_PANEL_WORDS = 26368,     /* words: the columns', the rows', those of areas and of placements */
    PALGWERN_PANEL_BYTES = 94816,     /* bytes: item marks of the columns and of the rows, names of areas and of placements */
    PALGWERN_STORE_BYTES = 32768,     /* columnstore, rowstore: the bytes of line names; at least so many, else 10 */
    PALGWERN_PLACEMENT_RUN = 4096,    /* numbers of a run of placements: eight for each that a panel can have, two for each cell */
    PALGWERN_LINE_NAME_RUN = 4096,    /* names of a run of line names: a word for each entry that an axis can have */
    PALGWERN_HITS = 512,              /* indexes of a list of placements: one for each that a panel can have */
    PALGWERN_CELLS = 256,             /* lands of cells: one for each that a panel can have */
    PALGWERN_AXIS_WORDS = 12480,      /* of an axis: components, track sizes, spare sizes, name records, name entries */
    PALGWERN_AREA_WORDS = 128,        /* edges, then names */
    PALGWERN_PLACEMENT_WORDS = 1280,  /* two words each, then a word for the line of each cell */
    PALGWERN_AXIS_MARKS = 30000,      /* a byte for each track of an axis, not 0 where it holds an item */
    PALGWERN_AREA_BYTES = 2048,       /* the bytes of the names of areas */
    PALGWERN_PLACEMENT_BYTES = 32768  /* the bytes of the names of placements */
};

/* Where the regions start: four of the words, four of the bytes. */
enum palgwern_start {
    PALGWERN_COLUMNS_START = 0,
    PALGWERN_ROWS_START = 12480,
    PALGWERN_AREAS_START = 24960,
    PALGWERN_PLACEMENTS_START = 25088,
    PALGWERN_COLUMN_MARKS_START = 0,
    PALGWERN_ROW_MARKS_START = 30000,
    PALGWERN_AREA_NAMES_START = 60000,
    PALGWERN_PLACEMENT_NAMES_START = 62048
};

/* How cells are packed: no automatic cell before the one placed last, or each in the first place that is free. */
enum palgwern_packing { PALGWERN_SPARSE = 0, PALGWERN_DENSE = 1 };

enum palgwern_axis_number { PALGWERN_COLUMNS = 0, PALGWERN_ROWS = 1 };

/* Kinds of an end of a placement: a resolved one has no names. */
enum palgwern_end {
    PALGWERN_END_AUTO = 0,
    PALGWERN_END_LINE = 1,
    PALGWERN_END_NAMED = 2,
    PALGWERN_END_SPAN = 3,
    PALGWERN_END_NSPAN = 4
};

/* The first word of a record: these added, and 4 times its source. */
enum palgwern_record { PALGWERN_GUTTER = 1, PALGWERN_COLLAPSED = 2 };

/* Where a record came from, whether it is collapsed or not. */
enum palgwern_source {
    PALGWERN_SOURCE_NEGATIVE = 0,  /* implicit, before the explicit grid */
    PALGWERN_SOURCE_TEMPLATE = 1,  /* a single or a counted repeat */
    PALGWERN_SOURCE_AUTOMATIC = 2, /* an automatic repeat */
    PALGWERN_SOURCE_AREA = 3,      /* explicit by areas alone */
    PALGWERN_SOURCE_POSITIVE = 4,  /* implicit, after the explicit grid */
    PALGWERN_SOURCE_GUTTER = 5     /* no track */
};

/* The source in a record's first word. */
static inline uint32_t palgwern_word_source(uint64_t word) { return word >> 2 & 7; }

/* The other two words are its minimum and maximum: kind times 2^32, and the bits of the float; a keyword has bits 0. */
enum palgwern_size {
    PALGWERN_LEN = 0,
    PALGWERN_PCT = 1,
    PALGWERN_FR = 2,
    PALGWERN_AUTO = 3,
    PALGWERN_MIN = 4,
    PALGWERN_MAX = 5,
    PALGWERN_FITL = 6,
    PALGWERN_FITP = 7
};

/* A panel by value, in two parts: what answers are read from, and what only an edit reads. Not for change: a caller keeps it and
 * hands it back, to an edit whole, to any other call its `grid`. */

/* The space of an axis, as its `axis` record says it. */
typedef struct palgwern_axis_space {
    uint32_t definite;       /* 1 where there is an inner size */
    uint32_t inner;          /* the bits of it */
    uint32_t rule;           /* 0 max, 1 min */
    uint64_t gap;            /* a size's word */
} palgwern_axis_space;

typedef struct palgwern_template_counts {
    uint32_t components;
    uint32_t tracks;
} palgwern_template_counts;

typedef struct palgwern_implicit_counts {
    uint32_t negative;       /* tracks before the grid */
    uint32_t positive;       /* tracks after it */
    uint32_t spares;         /* spare sizes */
} palgwern_implicit_counts;

typedef struct palgwern_axis_size {
    uint32_t repetitions;
    uint32_t explicit_count;
} palgwern_axis_size;

/* What answers on an axis. 56 bytes. */
typedef struct palgwern_axis_grid {
    palgwern_axis_space space;
    palgwern_template_counts template_counts;
    palgwern_implicit_counts implicit;
    uint32_t entries;        /* name entries */
    palgwern_axis_size size;
} palgwern_axis_grid;

/* What only an edit reads of an axis. 20 bytes. */
typedef struct palgwern_axis_room {
    palgwern_template_counts template_counts; /* as it is written */
    uint32_t names;          /* `name` records */
    uint32_t used;           /* bytes of the line-name store */
    uint32_t areas;          /* tracks that areas span */
} palgwern_axis_room;

/* 128 bytes. */
typedef struct palgwern_grid {
    palgwern_axis_grid columns;
    palgwern_axis_grid rows;
    uint32_t areas;          /* drawn areas */
    uint32_t placements;     /* a cell is two of them, one after the other: its columns, then its rows */
    uint32_t cells;          /* how many cells there are, each two of the placements */
} palgwern_grid;

/* 48 bytes. */
typedef struct palgwern_room {
    palgwern_axis_room columns;
    palgwern_axis_room rows;
    uint32_t areabytes;      /* bytes of the names of areas */
    uint32_t placementbytes; /* bytes of the names of placements */
} palgwern_room;

/* 176 bytes. */
typedef struct palgwern_panel {
    palgwern_grid grid;
    palgwern_room room;
} palgwern_panel;

/* Answers: `number` is the refusal's, 0 where there is none; the rest is 0 where there is one, but for the panel of
 * palgwern_enter_name and palgwern_resize, what an edit through a history and a recall hand back, and the grid of
 * palgwern_with_implicit, which come as they came. */
typedef struct palgwern_panel_answer { uint32_t number; uint32_t line; palgwern_panel panel; } palgwern_panel_answer;
/* `earlier` and `later`: the first two areas that share a cell (smallest later, then smallest earlier), numbered from 1 in sheet order;
 * of a sheet they come with refusal 12 alone, of a display wherever it is accepted and there are any. */
typedef struct palgwern_sheet_answer {
    uint32_t number;
    uint32_t line;
    uint32_t earlier;
    uint32_t later;
    palgwern_panel panel;
} palgwern_sheet_answer;
typedef struct palgwern_display_answer {
    uint32_t number;
    uint32_t line;
    uint32_t earlier;
    uint32_t later;
    palgwern_grid grid;
} palgwern_display_answer;
typedef struct palgwern_size_answer { uint32_t number; uint32_t repetitions; uint32_t explicit_count; } palgwern_size_answer;
typedef struct palgwern_count_answer { uint32_t number; uint64_t count; } palgwern_count_answer;
typedef struct palgwern_line_answer { uint32_t number; int32_t line; } palgwern_line_answer;
typedef struct palgwern_name_answer { uint32_t number; uint32_t offset; uint32_t length; } palgwern_name_answer;
typedef struct palgwern_cells_answer { uint32_t number; uint32_t line; uint32_t count; } palgwern_cells_answer;
/* How many placements and how many cells a trial answers. */
typedef struct palgwern_trial_answer { uint32_t number; uint32_t line; uint32_t placements; uint32_t cells; } palgwern_trial_answer;
typedef struct palgwern_resize_answer { uint32_t number; uint32_t found; uint32_t size; } palgwern_resize_answer;
/* A mark is 1 where the line of its end was held within -10,000..10,000 of the first explicit line, or a line on the way to it was: a
 * written line, the line of a name, the line beside a named span. 0 says that it would be the same if lines were never held. */
typedef struct palgwern_placement_answer {
    uint32_t number;
    uint32_t axis;        /* and 2 more where it is a cell's half: its columns are 2, its rows 3 */
    uint32_t startkind;
    int32_t startnumber;
    uint32_t endkind;
    int32_t endnumber;
    uint32_t startheld;   /* the marks of both ends */
    uint32_t endheld;
} palgwern_placement_answer;

/* The panel that a sheet describes. Refuses by 1 to 8 and 12 to 14 with the line (0: too long; the line after the last: what the whole
 * sheet says), then by 10 for a short store. */
palgwern_sheet_answer palgwern_read_sheet(
    const uint8_t *sheet, size_t sheet_bytes, uint64_t words[PALGWERN_PANEL_WORDS], uint8_t bytes[PALGWERN_PANEL_BYTES],
    uint8_t *columnstore, size_t columnstore_bytes, uint8_t *rowstore, size_t rowstore_bytes);

/* A sheet for display, as palgwern_read_sheet, but areas may share cells: it refuses by everything but 12. Its answer is a grid for
 * every answering call; nothing edits it. */
palgwern_display_answer palgwern_display_sheet(
    const uint8_t *sheet, size_t sheet_bytes, uint64_t words[PALGWERN_PANEL_WORDS], uint8_t bytes[PALGWERN_PANEL_BYTES],
    uint8_t *columnstore, size_t columnstore_bytes, uint8_t *rowstore, size_t rowstore_bytes);

/* The panel with one more line and name entered in an axis. The words of the other axis, of areas and of placements stay as they
 * are, and so does the other store. Refuses by 2, 4, 8, then 10. */
palgwern_panel_answer palgwern_enter_name(
    palgwern_panel panel, uint64_t words[PALGWERN_PANEL_WORDS],
    uint8_t *columnstore, size_t columnstore_bytes, uint8_t *rowstore, size_t rowstore_bytes,
    uint32_t axis, uint32_t line, const uint8_t *name, size_t name_bytes);

/* Repetitions of the automatic repeat and the explicit count of an axis. */
palgwern_size_answer palgwern_explicit_size(palgwern_grid grid, uint32_t axis);

/* How many lists of line names an axis has: 0, or one for each explicit line. */
palgwern_count_answer palgwern_line_count(palgwern_grid grid, uint32_t axis);

/* How many records an axis has: 2N + 1 for N tracks. */
palgwern_count_answer palgwern_record_count(palgwern_grid grid, uint32_t axis);

/* Placement `index`, from 0, with its names resolved. Refuses by 4 (no such placement), then 10. */
palgwern_placement_answer palgwern_resolve_placement(
    palgwern_grid grid, const uint64_t words[PALGWERN_PANEL_WORDS], const uint8_t bytes[PALGWERN_PANEL_BYTES],
    const uint8_t *columnstore, size_t columnstore_bytes, const uint8_t *rowstore, size_t rowstore_bytes,
    uint32_t index);

/* Placements from `first` on with their names resolved, as many as there are and as fit in `numbers` (all that a sheet gives), eight
 * numbers each in the order of palgwern_placement_answer; answers how many. Numbers past them stay as they are. The same answers as
 * one by one, but the names are grouped once for all. Refuses by 4 (`first` is no placement), then by 10 (a short store). */
palgwern_count_answer palgwern_resolve_placements(
    palgwern_grid grid, const uint64_t words[PALGWERN_PANEL_WORDS], const uint8_t bytes[PALGWERN_PANEL_BYTES],
    const uint8_t *columnstore, size_t columnstore_bytes, const uint8_t *rowstore, size_t rowstore_bytes,
    uint32_t first, int32_t numbers[PALGWERN_PLACEMENT_RUN]);

/* Where a name of a line (from 1) of an axis lies in the axis's store, by its place from 0. Length 0: that line and place hold
 * none. Offset and length stay within the store. Refuses by 4 (no axis), then by 10 (a short store). */
palgwern_name_answer palgwern_line_name(
    palgwern_grid grid, const uint64_t words[PALGWERN_PANEL_WORDS],
    const uint8_t *columnstore, size_t columnstore_bytes, const uint8_t *rowstore, size_t rowstore_bytes,
    uint32_t axis, uint32_t line, uint32_t place);

/* All line names of an axis: one list for each explicit line after the other, in entry order, a name once. A word for each name: its
 * line (from 1), its offset in the axis's store times 2^16, and its length times 2^32. Answers how many words are written to
 * `names`; words past them stay as they are. Offset and length stay within the store. Refuses by 4 (no axis, or an explicit count
 * above 10,000, which no sheet gives), then by 10 (a short store). */
palgwern_count_answer palgwern_line_names(
    palgwern_grid grid, const uint64_t words[PALGWERN_PANEL_WORDS],
    const uint8_t *columnstore, size_t columnstore_bytes, const uint8_t *rowstore, size_t rowstore_bytes,
    uint32_t axis, uint64_t names[PALGWERN_LINE_NAME_RUN]);

/* The parts of a word of palgwern_line_names. */
static inline uint32_t palgwern_word_line(uint64_t word) { return word & 0xffff; }
static inline uint32_t palgwern_word_offset(uint64_t word) { return word >> 16 & 0xffff; }
static inline uint32_t palgwern_word_length(uint64_t word) { return word >> 32 & 0xff; }

/* Records of an axis from `first` on, as many as there are and as fit in `records`, three words each; answers how many. `items`
 * has a byte for each track, not 0 where it holds an item: the marks that the sheet left, or others. Refuses by 4 (no axis, or
 * `first` is no record), then by 10 (fewer item bytes than tracks, or words for no record). Time is linear in the axis, so hand
 * over a run for all. */
palgwern_count_answer palgwern_records(
    palgwern_grid grid, const uint64_t words[PALGWERN_PANEL_WORDS],
    uint32_t axis, const uint8_t *items, size_t items_bytes, uint32_t first, uint64_t *records, size_t records_length);

/* The line of an axis nearest to a cursor, as a grid line, the lower of two as near: 1 is the first explicit line, lines before it are
 * counted from the end. `cursor` has the bits of an f32, a position in pixels from the start of the first record of the axis; `items`
 * is as in palgwern_records. Refuses by 3 (no position from 0 to 65,535), then by 4 (no axis, or a count above 10,000, which no sheet
 * gives), by 10 (fewer item bytes than tracks), and by 11 (a track or gutter of the axis has no definite size). Time is linear in the
 * axis. */
palgwern_line_answer palgwern_nearest_line(
    palgwern_grid grid, const uint64_t words[PALGWERN_PANEL_WORDS],
    uint32_t axis, const uint8_t *items, size_t items_bytes, uint32_t cursor);

/* The placements of an axis with both lines within a span of pixels, its ends included, by their indexes from 0, ascending, from the
 * first place of `hits` on; answers how many. Places past them stay as they are. `low` and `high` are the bits of two floats, 0 to
 * 65,535; where `low` lies above `high` no line is within. Lines are not held, reversed ones are swapped, equal ones span one track;
 * a placement with an end that is no line, or with a line that is 0 or off the grid, and a cell's half is in no list. `items` is as for
 * palgwern_records. Refuses by 3 (an end of the span is no length), then by 4 (no axis, or a count above 10,000, which no sheet gives),
 * by 10 (fewer item bytes than tracks, or a short store) and by 11 (a track or gutter with no definite size). */
palgwern_count_answer palgwern_placements_within(
    palgwern_grid grid, const uint64_t words[PALGWERN_PANEL_WORDS], const uint8_t bytes[PALGWERN_PANEL_BYTES],
    const uint8_t *columnstore, size_t columnstore_bytes, const uint8_t *rowstore, size_t rowstore_bytes,
    uint32_t axis, const uint8_t *items, size_t items_bytes, uint32_t low, uint32_t high, uint32_t hits[PALGWERN_HITS]);

/* The placements of an axis with a grid line strictly between their own lines, in the same way. Refuses by 4 (no axis, a count above
 * 10,000, or a line outside -32,768..32,767), then by 9 (line 0), by 10 and by 11 as above. */
palgwern_count_answer palgwern_placements_around(
    palgwern_grid grid, const uint64_t words[PALGWERN_PANEL_WORDS], const uint8_t bytes[PALGWERN_PANEL_BYTES],
    const uint8_t *columnstore, size_t columnstore_bytes, const uint8_t *rowstore, size_t rowstore_bytes,
    uint32_t axis, const uint8_t *items, size_t items_bytes, int32_t line, uint32_t hits[PALGWERN_HITS]);

/* Where the cells of a panel land, by CSS Grid Level 1, 8.3.1 and 8.5 (row flow), beside the explicit columns and 10,000 rows: a word
 * for each cell, in sheet order, from the first place of `lands` on; answers how many. Words past them stay as they are. Refuses by 4
 * (no packing, or an explicit count above 10,000, which no sheet gives), then by 10 (a short store), both at line 0, and then by 15 with
 * the line of the first cell in placing order for which no place is free, or that leaves the columns or the rows. */
palgwern_cells_answer palgwern_place_cells(
    palgwern_grid grid, const uint64_t words[PALGWERN_PANEL_WORDS], const uint8_t bytes[PALGWERN_PANEL_BYTES],
    const uint8_t *columnstore, size_t columnstore_bytes, const uint8_t *rowstore, size_t rowstore_bytes,
    uint32_t packing, uint64_t lands[PALGWERN_CELLS]);

/* The lines of a word of palgwern_place_cells and of palgwern_try_name: line 1 is the first of its axis. */
static inline uint32_t palgwern_land_column_start(uint64_t word) { return word & 0xffff; }
static inline uint32_t palgwern_land_column_end(uint64_t word) { return word >> 16 & 0xffff; }
static inline uint32_t palgwern_land_row_start(uint64_t word) { return word >> 32 & 0xffff; }
static inline uint32_t palgwern_land_row_end(uint64_t word) { return word >> 48 & 0xffff; }

/* What is tried beside a name: the axis and the line of its entry, and how cells are packed. */
typedef struct palgwern_trial { uint32_t axis; uint32_t line; uint32_t packing; } palgwern_trial;

/* A name tried before it is entered: where all placements and cells would be after palgwern_enter_name. The panel and all that is lent
 * stay, but for the answer: `numbers` as palgwern_resolve_placements writes them from placement 0 on, and `lands` as palgwern_place_cells
 * does by that packing, which is always named; what lies past them stays. Refuses by 2, by 4 (no axis, no packing, no line), by 8 and by 10
 * as the entry, then by 4 (an explicit count above 10,000, which no sheet gives), all at line 0, and by 15 with the line of the first cell
 * in placing order that would have no place; nothing is written then. */
palgwern_trial_answer palgwern_try_name(
    palgwern_panel panel, const uint64_t words[PALGWERN_PANEL_WORDS], const uint8_t bytes[PALGWERN_PANEL_BYTES],
    const uint8_t *columnstore, size_t columnstore_bytes, const uint8_t *rowstore, size_t rowstore_bytes,
    palgwern_trial trial, const uint8_t *name, size_t name_bytes,
    int32_t numbers[PALGWERN_PLACEMENT_RUN], uint64_t lands[PALGWERN_CELLS]);

/* The step of a panel, and the last step of its history: both 0 where a sheet is read. 16 bytes. */
typedef struct palgwern_history { uint64_t step; uint64_t last; } palgwern_history;
/* What a name is entered in through a history: an axis and a line. */
typedef struct palgwern_name_edit { uint32_t axis; uint32_t line; } palgwern_name_edit;
/* `earlier` and `later` come with refusal 12 alone. On a refusal the panel and the history come back as they came. 208 bytes. */
typedef struct palgwern_edit_answer {
    uint32_t number;
    uint32_t line;
    uint32_t earlier;
    uint32_t later;
    palgwern_panel panel;
    palgwern_history history;
} palgwern_edit_answer;

/* A panel edited through a history: the sheet that it was read from is lent again, and `lines` holds the history, a line for each edit
 * from its first byte on, whatever it holds at first. `text` is one line, without a line feed: an `area`, `track` or `place` line of a
 * sheet, or `enter`, axis, line and name, parted by tabs. It is settled as if it were last in the sheet, an area last of the areas,
 * after the edits of the first `history.step` lines, and direct entries come after all names. It becomes the line after them, its
 * number and a tab before it, and a line feed after it; later lines are dropped, their bytes too. Every edit has to come through these
 * calls with what the last one left; names that palgwern_enter_name entered are forgotten.
 * Refuses a sheet whose lines are refused as palgwern_read_sheet does, then a history that has no such lines by 17, then, at line 0,
 * an edit by 1 (another text), 2 to 6, 12 (`later` is the number that the new area would have) and 8, by 4 and 8 as a whole sheet, by
 * 10 (a short store), and by 16 where its line does not fit. Time is that of reading the sheet and the lines before it. */
palgwern_edit_answer palgwern_edit(
    const uint8_t *sheet, size_t sheet_bytes, palgwern_panel panel, palgwern_history history,
    uint64_t words[PALGWERN_PANEL_WORDS], uint8_t bytes[PALGWERN_PANEL_BYTES],
    uint8_t *columnstore, size_t columnstore_bytes, uint8_t *rowstore, size_t rowstore_bytes,
    uint8_t *lines, size_t lines_bytes, const uint8_t *text, size_t text_bytes);

/* The same where the edit is a line and a name in an axis, whose line is `enter`. Refuses by 2 (no name) and by 4 (no axis) before all
 * else. */
palgwern_edit_answer palgwern_edit_name(
    const uint8_t *sheet, size_t sheet_bytes, palgwern_panel panel, palgwern_history history,
    uint64_t words[PALGWERN_PANEL_WORDS], uint8_t bytes[PALGWERN_PANEL_BYTES],
    uint8_t *columnstore, size_t columnstore_bytes, uint8_t *rowstore, size_t rowstore_bytes,
    uint8_t *lines, size_t lines_bytes, palgwern_name_edit entry, const uint8_t *name, size_t name_bytes);

/* The panel of an earlier or a later step: that of the sheet with the first `step` edits alone. The lines stay as they are, so a later
 * step can be recalled until a new edit. Refuses a sheet whose lines are refused as palgwern_read_sheet does, then by 10 (a short
 * store) and by 17 (a step above the last, or a history that has no such lines). */
palgwern_edit_answer palgwern_recall(
    const uint8_t *sheet, size_t sheet_bytes, palgwern_panel panel, palgwern_history history,
    uint64_t words[PALGWERN_PANEL_WORDS], uint8_t bytes[PALGWERN_PANEL_BYTES],
    uint8_t *columnstore, size_t columnstore_bytes, uint8_t *rowstore, size_t rowstore_bytes,
    const uint8_t *lines, size_t lines_bytes, uint64_t step);

/* The least resize that matters: of the whole inner sizes 0 to 65,535 the nearest to the size now at which the automatic repeat of an
 * axis is written out another number of times, the wider of two. `found` is 1 and `size` that size, not the change; both are 0 where
 * the count is the same at every size. Refuses by 4 (no axis), then by 3: the template counts as none or has no automatic repeat,
 * the axis has no inner size or none in whole pixels, or its gap is no length. Every size may have to be tried: bench/README.md says
 * how long that takes. */
palgwern_resize_answer palgwern_least_resize(palgwern_grid grid, const uint64_t words[PALGWERN_PANEL_WORDS], uint32_t axis);

/* `start` and `end` are lines of an axis, numbered from 1 as in an `area` line and an entry, 0 where there is none. */
typedef struct palgwern_area_answer { uint32_t number; uint32_t start; uint32_t end; } palgwern_area_answer;

/* The edges of the drawn area of a name in an axis, whether an `area` line or a picture draws it; both 0 where none has the name. Refuses
 * by 2 (no name), then by 4 (no axis). */
palgwern_area_answer palgwern_drawn_area(
    palgwern_grid grid, const uint64_t words[PALGWERN_PANEL_WORDS], const uint8_t bytes[PALGWERN_PANEL_BYTES],
    uint32_t axis, const uint8_t *name, size_t name_bytes);

/* The edges of the area that names make in an axis: the first line that bears NAME-start and the first that bears NAME-end, by an entry or
 * as the edge of a drawn area, each 0 where no line does. A placement by the name alone goes there, where a line beyond 10,000 of the first
 * is held. Refuses by 2 (no name), then by 4 (no axis) and by 10 (a short store). */
palgwern_area_answer palgwern_named_area(
    palgwern_grid grid, const uint64_t words[PALGWERN_PANEL_WORDS], const uint8_t bytes[PALGWERN_PANEL_BYTES],
    const uint8_t *columnstore, size_t columnstore_bytes, const uint8_t *rowstore, size_t rowstore_bytes,
    uint32_t axis, const uint8_t *name, size_t name_bytes);

/* The repetitions of the automatic repeat and the explicit count that an axis would have at another inner size, those of the same sheet
 * with that size: the panel stays. `inner` has the bits of an f32. Every axis has an answer, also one without an automatic repeat, whose
 * template counts as none, or whose gap is a percentage. It takes the whole panel, since the tracks that areas span are in its `room`.
 * Refuses by 3 (no size from 0 to 65,535), then by 4 (no axis, or more than 10,000 explicit tracks at that size) and by 8 (more than 64
 * components, which no sheet gives). */
palgwern_size_answer palgwern_size_at(palgwern_panel panel, const uint64_t words[PALGWERN_PANEL_WORDS], uint32_t axis, uint32_t inner);

/* The panel of the same sheet with another inner size of an axis, followed by the same accepted entries: the names of the template are
 * written out anew, and the direct entries come after them in their order. `inner` has the bits of an f32. All words stay but those of the
 * axis's entries, and so do the bytes of both stores. Refuses by 3 (no size from 0 to 65,535), then by 4 (no axis, or more than 10,000
 * explicit tracks at that size), by 8 (more than 4,096 entries, the direct ones counted) and by 10 (a short store). */
palgwern_panel_answer palgwern_resize(
    palgwern_panel panel, uint64_t words[PALGWERN_PANEL_WORDS],
    const uint8_t *columnstore, size_t columnstore_bytes, const uint8_t *rowstore, size_t rowstore_bytes,
    uint32_t axis, uint32_t inner);

/* ---- placements and implicit tracks by argument, which no sheet lists: the panel stays */

/* A placement: its axis, and of each end the kind, the number and how many bytes of the names are its own. A number or a name that its kind
 * does not use is not read: `auto` uses neither, `line` and `span` no name. */
typedef struct palgwern_given {
    uint32_t axis;
    uint32_t startkind;
    int32_t startnumber;
    uint32_t startname;
    uint32_t endkind;
    int32_t endnumber;
    uint32_t endname;
} palgwern_given;
/* How many placements were resolved; `index` is that of the placement that is refused, 0 where the call as a whole is. */
typedef struct palgwern_given_answer { uint32_t number; uint32_t index; uint32_t count; } palgwern_given_answer;

/* Placements with their names resolved, as `place` lines with the same ends after those of the sheet would be: `numbers` has eight for each,
 * as palgwern_resolve_placements writes them. `names` has the bytes of all names one after the other, start before end. Refuses by 8 (more
 * than 256), then by 10 (fewer bytes of names than the placements say), then for the first placement that has it by 2 (a used name that is
 * none), or else by 4 (an axis, a kind or a used number outside its range), and last by 10 (a short store); nothing is written then. None
 * given are none answered. */
palgwern_given_answer palgwern_resolve_given(
    palgwern_grid grid, const uint64_t words[PALGWERN_PANEL_WORDS], const uint8_t bytes[PALGWERN_PANEL_BYTES],
    const uint8_t *columnstore, size_t columnstore_bytes, const uint8_t *rowstore, size_t rowstore_bytes,
    const palgwern_given *given, size_t given_length, const uint8_t *names, size_t names_bytes,
    int32_t numbers[PALGWERN_PLACEMENT_RUN]);

/* A grid for any answering call. */
typedef struct palgwern_grid_answer { uint32_t number; palgwern_grid grid; } palgwern_grid_answer;

/* The grid with so many implicit tracks before and after the explicit ones of an axis, as an `extra` line gives them; spare sizes stay. It
 * answers, with what was lent, as the panel of that sheet. Refuses by 4 (no axis, or more than 10,000), and then the grid is as it came. */
palgwern_grid_answer palgwern_with_implicit(palgwern_grid grid, uint32_t axis, uint32_t negative, uint32_t positive);

/* ---- lines and tracks by argument, without a panel. Lines are origin-zero lines, 0 the first explicit one, where none is called a grid
 * line. A count above 10,000 is refused by 4, and so is a line outside -10,000..10,000. */

/* The tracks of an axis: before the explicit grid, in it, and after it. */
typedef struct palgwern_track_counts { uint32_t negative; uint32_t explicit_count; uint32_t positive; } palgwern_track_counts;
/* `held` is 1 where the line was held within -10,000..10,000. */
typedef struct palgwern_conversion_answer { uint32_t number; int32_t line; uint32_t held; } palgwern_conversion_answer;
typedef struct palgwern_track_answer { uint32_t number; int32_t track; } palgwern_track_answer;
typedef struct palgwern_line_record_answer { uint32_t number; uint32_t found; uint32_t place; } palgwern_line_record_answer;

/* The origin-zero line of a grid line beside so many explicit tracks: one less for a line that is counted from the start, so many and one
 * more for one that is counted from the end, held within -10,000..10,000. Refuses by 4 (more than 10,000 tracks, or a grid line outside
 * -32,768..32,767), then by 9 (grid line 0). */
palgwern_conversion_answer palgwern_into_origin_zero_line(int32_t line, uint32_t tracks);

/* The grid line of an origin-zero line beside so many explicit tracks: counted from the start from line 0 on, else from the end. */
palgwern_line_answer palgwern_into_grid_line(int32_t line, uint32_t tracks);

/* The track after a line, counted from the first track of the axis, 0; negative before it. */
palgwern_track_answer palgwern_next_track(palgwern_track_counts counts, int32_t line);

/* The line before a track, counted from the first track of the axis, 0. Refuses a track above 30,000 by 4 too. */
palgwern_line_answer palgwern_previous_line(palgwern_track_counts counts, uint32_t track);

/* The record of a line: `found` is 1 and `place` that of its gutter among the records of the axis; both are 0 where the axis does not have
 * the line. */
palgwern_line_record_answer palgwern_line_record(palgwern_track_counts counts, int32_t line);

/* The counts of an axis of a panel, for these calls. */
static inline palgwern_track_counts palgwern_counts_of(palgwern_axis_grid axis) {
    palgwern_track_counts counts;
    counts.negative = axis.implicit.negative;
    counts.explicit_count = axis.size.explicit_count;
    counts.positive = axis.implicit.positive;
    return counts;
}

/* ---- the layout of the structs */

/* The number of the layout that this header declares. */
enum palgwern_layout_number { PALGWERN_LAYOUT = 2 };

/* The number of the layout that the library was made with. A program that is linked at another time than it was compiled compares the two
 * before any other call: it is one more after each change of a struct, a length or a number above, and the same where calls and structs
 * are only added. */
uint32_t palgwern_layout(void);

/* ---- all that is lent, in one struct, and the calls on it */

typedef struct palgwern_tables {
    uint64_t words[PALGWERN_PANEL_WORDS];
    uint8_t bytes[PALGWERN_PANEL_BYTES];
    uint8_t columnstore[PALGWERN_STORE_BYTES];
    uint8_t rowstore[PALGWERN_STORE_BYTES];
} palgwern_tables;

static inline palgwern_sheet_answer palgwern_tables_read(palgwern_tables *t, const void *sheet, size_t bytes) {
    return palgwern_read_sheet((const uint8_t *)sheet, bytes, t->words, t->bytes, t->columnstore, sizeof t->columnstore, t->rowstore,
        sizeof t->rowstore);
}

static inline palgwern_display_answer palgwern_tables_display(palgwern_tables *t, const void *sheet, size_t bytes) {
    return palgwern_display_sheet((const uint8_t *)sheet, bytes, t->words, t->bytes, t->columnstore, sizeof t->columnstore, t->rowstore,
        sizeof t->rowstore);
}

static inline palgwern_panel_answer palgwern_tables_enter(palgwern_tables *t, palgwern_panel panel, uint32_t axis, uint32_t line,
    const void *name, size_t bytes) {
    return palgwern_enter_name(panel, t->words, t->columnstore, sizeof t->columnstore, t->rowstore, sizeof t->rowstore, axis, line,
        (const uint8_t *)name, bytes);
}

static inline palgwern_placement_answer palgwern_tables_placement(const palgwern_tables *t, palgwern_grid grid, uint32_t index) {
    return palgwern_resolve_placement(grid, t->words, t->bytes, t->columnstore, sizeof t->columnstore, t->rowstore,
        sizeof t->rowstore, index);
}

static inline palgwern_count_answer palgwern_tables_placements(const palgwern_tables *t, palgwern_grid grid, uint32_t first,
    int32_t numbers[PALGWERN_PLACEMENT_RUN]) {
    return palgwern_resolve_placements(grid, t->words, t->bytes, t->columnstore, sizeof t->columnstore, t->rowstore,
        sizeof t->rowstore, first, numbers);
}

static inline palgwern_resize_answer palgwern_tables_resize(const palgwern_tables *t, palgwern_grid grid, uint32_t axis) {
    return palgwern_least_resize(grid, t->words, axis);
}

static inline palgwern_area_answer palgwern_tables_drawn_area(const palgwern_tables *t, palgwern_grid grid, uint32_t axis,
    const void *name, size_t bytes) {
    return palgwern_drawn_area(grid, t->words, t->bytes, axis, (const uint8_t *)name, bytes);
}

static inline palgwern_area_answer palgwern_tables_named_area(const palgwern_tables *t, palgwern_grid grid, uint32_t axis,
    const void *name, size_t bytes) {
    return palgwern_named_area(grid, t->words, t->bytes, t->columnstore, sizeof t->columnstore, t->rowstore, sizeof t->rowstore, axis,
        (const uint8_t *)name, bytes);
}

static inline palgwern_size_answer palgwern_tables_size_at(const palgwern_tables *t, palgwern_panel panel, uint32_t axis, uint32_t inner) {
    return palgwern_size_at(panel, t->words, axis, inner);
}

static inline palgwern_panel_answer palgwern_tables_resized(palgwern_tables *t, palgwern_panel panel, uint32_t axis, uint32_t inner) {
    return palgwern_resize(panel, t->words, t->columnstore, sizeof t->columnstore, t->rowstore, sizeof t->rowstore, axis, inner);
}

static inline palgwern_given_answer palgwern_tables_given(const palgwern_tables *t, palgwern_grid grid, const palgwern_given *given,
    size_t length, const void *names, size_t bytes, int32_t numbers[PALGWERN_PLACEMENT_RUN]) {
    return palgwern_resolve_given(grid, t->words, t->bytes, t->columnstore, sizeof t->columnstore, t->rowstore, sizeof t->rowstore, given,
        length, (const uint8_t *)names, bytes, numbers);
}

static inline palgwern_count_answer palgwern_tables_names(const palgwern_tables *t, palgwern_grid grid, uint32_t axis,
    uint64_t names[PALGWERN_LINE_NAME_RUN]) {
    return palgwern_line_names(grid, t->words, t->columnstore, sizeof t->columnstore, t->rowstore, sizeof t->rowstore, axis, names);
}

static inline palgwern_name_answer palgwern_tables_name(const palgwern_tables *t, palgwern_grid grid, uint32_t axis,
    uint32_t line, uint32_t place) {
    return palgwern_line_name(grid, t->words, t->columnstore, sizeof t->columnstore, t->rowstore, sizeof t->rowstore, axis, line,
        place);
}

/* the sheet's item marks, which the calls below answer with */
static inline const uint8_t *palgwern_tables_items(const palgwern_tables *t, uint32_t axis) {
    return t->bytes + (axis == PALGWERN_ROWS ? PALGWERN_ROW_MARKS_START : PALGWERN_COLUMN_MARKS_START);
}

static inline palgwern_count_answer palgwern_tables_records(const palgwern_tables *t, palgwern_grid grid, uint32_t axis,
    uint32_t first, uint64_t *records, size_t length) {
    return palgwern_records(grid, t->words, axis, palgwern_tables_items(t, axis), PALGWERN_AXIS_MARKS, first, records, length);
}

static inline palgwern_count_answer palgwern_tables_within(const palgwern_tables *t, palgwern_grid grid, uint32_t axis,
    uint32_t low, uint32_t high, uint32_t hits[PALGWERN_HITS]) {
    return palgwern_placements_within(grid, t->words, t->bytes, t->columnstore, sizeof t->columnstore, t->rowstore,
        sizeof t->rowstore, axis, palgwern_tables_items(t, axis), PALGWERN_AXIS_MARKS, low, high, hits);
}

static inline palgwern_count_answer palgwern_tables_around(const palgwern_tables *t, palgwern_grid grid, uint32_t axis,
    int32_t line, uint32_t hits[PALGWERN_HITS]) {
    return palgwern_placements_around(grid, t->words, t->bytes, t->columnstore, sizeof t->columnstore, t->rowstore,
        sizeof t->rowstore, axis, palgwern_tables_items(t, axis), PALGWERN_AXIS_MARKS, line, hits);
}

static inline palgwern_cells_answer palgwern_tables_cells(const palgwern_tables *t, palgwern_grid grid, uint32_t packing,
    uint64_t lands[PALGWERN_CELLS]) {
    return palgwern_place_cells(grid, t->words, t->bytes, t->columnstore, sizeof t->columnstore, t->rowstore, sizeof t->rowstore,
        packing, lands);
}

static inline palgwern_trial_answer palgwern_tables_try(const palgwern_tables *t, palgwern_panel panel, palgwern_trial trial,
    const void *name, size_t bytes, int32_t numbers[PALGWERN_PLACEMENT_RUN], uint64_t lands[PALGWERN_CELLS]) {
    return palgwern_try_name(panel, t->words, t->bytes, t->columnstore, sizeof t->columnstore, t->rowstore, sizeof t->rowstore, trial,
        (const uint8_t *)name, bytes, numbers, lands);
}

/* A panel that is edited through a history: its sheet, its panel and its step, and the bytes of its history, which are the caller's. */
typedef struct palgwern_recorded {
    const void *sheet;
    size_t sheet_bytes;
    palgwern_panel panel;
    palgwern_history history;
    uint8_t *lines;
    size_t lines_bytes;
} palgwern_recorded;

/* What an edit or a recall answers is kept; on a refusal that is what was there. */
static inline palgwern_edit_answer palgwern_recorded_keep(palgwern_recorded *r, palgwern_edit_answer answer) {
    r->panel = answer.panel;
    r->history = answer.history;
    return answer;
}

static inline palgwern_edit_answer palgwern_recorded_edit(palgwern_recorded *r, palgwern_tables *t, const void *text, size_t bytes) {
    return palgwern_recorded_keep(r, palgwern_edit((const uint8_t *)r->sheet, r->sheet_bytes, r->panel, r->history, t->words, t->bytes,
        t->columnstore, sizeof t->columnstore, t->rowstore, sizeof t->rowstore, r->lines, r->lines_bytes, (const uint8_t *)text, bytes));
}

static inline palgwern_edit_answer palgwern_recorded_edit_name(palgwern_recorded *r, palgwern_tables *t, uint32_t axis, uint32_t line,
    const void *name, size_t bytes) {
    palgwern_name_edit entry;
    entry.axis = axis;
    entry.line = line;
    return palgwern_recorded_keep(r, palgwern_edit_name((const uint8_t *)r->sheet, r->sheet_bytes, r->panel, r->history, t->words, t->bytes,
        t->columnstore, sizeof t->columnstore, t->rowstore, sizeof t->rowstore, r->lines, r->lines_bytes, entry, (const uint8_t *)name,
        bytes));
}

static inline palgwern_edit_answer palgwern_recorded_recall(palgwern_recorded *r, palgwern_tables *t, uint64_t step) {
    return palgwern_recorded_keep(r, palgwern_recall((const uint8_t *)r->sheet, r->sheet_bytes, r->panel, r->history, t->words, t->bytes,
        t->columnstore, sizeof t->columnstore, t->rowstore, sizeof t->rowstore, r->lines, r->lines_bytes, step));
}

static inline palgwern_line_answer palgwern_tables_nearest_line(const palgwern_tables *t, palgwern_grid grid, uint32_t axis,
    uint32_t cursor) {
    return palgwern_nearest_line(grid, t->words, axis, palgwern_tables_items(t, axis), PALGWERN_AXIS_MARKS, cursor);
}

#ifdef __cplusplus
}
#endif
#endif
