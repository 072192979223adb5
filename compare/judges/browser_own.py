"""Differences that are a browser's own: each is recognized by a test of what that browser does."""
from dataclasses import replace

import css
import exact_repeats
import placing
from answered import in_order
from exact_repeats import CHROMIUM_UNIT

# Firefox holds every number that is written to 10,000 either way, and every line between these positions.
FIREFOX_NUMBER = 10000
FIREFOX_LINES = (-10001, 9999)


# Lengths.

def chromium_shares(asked, finding):
    """Space that is shared out among tracks leaves a rest of units, which may go to other tracks: no size is off by more
    than a unit."""
    return within(finding, CHROMIUM_UNIT)


def chromium_shares_before(asked, finding):
    """The same of the places, off by no more than a unit for each track before them; sizes as above."""
    sizes = all(abs(size - other) <= CHROMIUM_UNIT for (_, size), (_, other) in zip(finding.ours, finding.seen))
    starts = replace(finding, ours=[start for start, _ in finding.ours], seen=[start for start, _ in finding.seen])
    return sizes and within(starts, CHROMIUM_UNIT * asked.answered.tracks(finding.letter))


def within(finding, most):
    return len(finding.ours) == len(finding.seen) and all(abs(one - other) <= most for one, other in zip(finding.ours, finding.seen))


def off_exact(found_by):
    """A test of repetitions: what is shown is what the browser finds in its units, and not the exact number."""
    def test(asked, finding):
        axis = asked.panel.axes[finding.letter]
        return finding.seen == found_by(axis) != exact_repeats.repetitions(axis)
    return test


# Lines.

class FirefoxLines(css.Lines):
    """Counting back, the first line looked at is passed over where it is none of the template's own, and with it the edge
    of an area there."""

    def __init__(self, asked, letter):
        super().__init__(asked.book(letter), asked.panel.areas, letter, asked.answered.explicit[letter])
        # Where entries were made, every explicit track is drawn in the template. No template has no line.
        tracks = self.explicit if asked.has_entries(letter) else asked.template_tracks(letter)
        self.last_line = tracks if tracks else -1

    def count_on(self, name, after, number, step):
        if step < 0 and after - 1 > self.last_line:
            after -= 1
        return super().count_on(name, after, number, step)


def unheld(number):
    return number


def number_held(number):
    return max(-FIREFOX_NUMBER, min(FIREFOX_NUMBER, number))


def line_held(line):
    return max(FIREFOX_LINES[0], min(FIREFOX_LINES[1], line))


def item_by(lines, asked, finding, hold_number, hold_line):
    """Start and size of an item by a way of counting lines, its numbers and lines held."""
    placement = asked.panel.placements[finding.index]
    ends = [replace(end, number=hold_number(end.number)) for end in (placement.start, placement.end)]
    found = lines.resolve(replace(placement, start=ends[0], end=ends[1]))
    at = [lines.written_line(end.number) if end.kind == "line" else position for end, position in zip(ends, found)]
    start, end = (None if position is None else hold_line(position) for position in at)
    span = next((hold_number(number) for kind, number in asked.answered.ends(finding.index) if kind == "span"), 1)
    if start is None and end is None:
        return None, min(hold_line(span), hold_line(finding.start + span) - finding.start)
    low, size = in_order(hold_line(end - span) if start is None else start, hold_line(start + span) if end is None else end)
    return min(low, hold_line(low + size) - size), size


def off_css(hold_number, hold_line):
    """A test of a placement: what is shown is what Firefox counts, with its limits or without, and not what CSS counts."""
    def test(asked, finding):
        firefox = FirefoxLines(asked, finding.letter)
        plain = css.Lines(asked.book(finding.letter), asked.panel.areas, finding.letter, firefox.explicit)
        counted = item_by(firefox, asked, finding, hold_number, hold_line)
        return finding.seen == counted != item_by(plain, asked, finding, unheld, unheld)
    return test


def firefox_repetitions(asked, letter):
    """The tracks of a template held to 10,000 by the number of repetitions, which leaves room for one more repetition."""
    repeat = asked.automatic(letter)
    outside = asked.template_tracks(letter) - asked.answered.repetitions[letter] * len(repeat.tracks)
    return min(asked.answered.repetitions[letter], (FIREFOX_NUMBER - outside - len(repeat.tracks)) // len(repeat.tracks))


def firefox_holds_repetitions(asked, finding):
    return finding.seen == firefox_repetitions(asked, finding.letter)


def firefox_holds_count(asked, finding):
    """The explicit count after the repetitions are held; an item on the last line is moved to the last track."""
    tracks = finding.ours
    if asked.automatic(finding.letter) and not asked.has_entries(finding.letter) and tracks == asked.template_tracks(finding.letter):
        held = asked.answered.repetitions[finding.letter] - firefox_repetitions(asked, finding.letter)
        tracks -= held * len(asked.automatic(finding.letter).tracks)
    return finding.seen == min(tracks, FIREFOX_LINES[1] - 1)


# Cells.

def row_after(row, placed):
    """The row that Chromium goes on to where a row has no place for a cell: past the first end of an item that began above that row, though
    one that begins in it may end before."""
    ends = [area.row_end for area in placed if area.row < row < area.row_end]
    return min(ends, default=row + 1)


def in_row(grid, item, column, row):
    """Where a cell lies in a row, from a column on or in its own columns, None where there is no room."""
    if not item.columns.lines:
        return grid.along(column, item, row)
    area = placing.Area(*item.columns.lines, row, row + item.rows.span)
    return None if grid.in_way(area) else area


def passing_over(grid, item, column, row):
    """Where Chromium puts a cell without a row, from a cursor on, going on from row to row in this way."""
    if item.columns.lines and item.columns.lines[0] < column:
        row += 1
    area = None
    while area is None and row + item.rows.span <= placing.LAST_ROW_LINE:
        area = in_row(grid, item, column, row)
        column, row = 1, row_after(row, grid.placed)
    return area


def chromium_passes_over_rows(packing):
    """A test of cells: each, in placing order, lies where CSS puts it beside what Chromium placed before, or where it lies by passing over
    rows, and some cell lies there."""
    def test(asked, finding):
        items = asked.state.items()
        shown = dict(zip(map(id, items), (placing.Area(*map(int, box)) for box in finding.seen)))
        grid, passed = placing.Placing(asked.answered.explicit["c"], packing), 0
        for place, item in placing.steps(items):
            cursor = (grid.column, grid.row) if packing == placing.SPARSE else (1, 1)
            seen = shown[id(item)]
            if place(grid, item) != seen:
                if item.rows.lines or passing_over(grid, item, *cursor) != seen:
                    return False
                passed += 1
            if not item.rows.lines:
                grid.column, grid.row = seen.column, seen.row
            grid.placed.append(seen)
        return passed > 0
    return test


# Each: its name, the browser, the question that it is about, and the test.
OWN = [
    ("Chromium shares out space in 1/64 px", "Chromium", "track sizes", chromium_shares),
    ("Chromium shares out space in 1/64 px", "Chromium", "track places", chromium_shares_before),
    ("Chromium cuts a quotient to 1/64 before it rounds it up", "Chromium", "repetitions", off_exact(exact_repeats.by_cut_quotient)),
    ("Chromium cuts lengths to 1/64 px", "Chromium", "repetitions", off_exact(exact_repeats.by_chromium)),
    ("Chromium passes over free rows", "Chromium", "sparse cells", chromium_passes_over_rows(placing.SPARSE)),
    ("Chromium passes over free rows", "Chromium", "dense cells", chromium_passes_over_rows(placing.DENSE)),
    ("Firefox rounds lengths to 1/60 px", "Firefox", "repetitions", off_exact(exact_repeats.by_firefox)),
    ("Firefox counts back from before an area's edge past the template", "Firefox", "placement", off_css(unheld, unheld)),
    ("Firefox holds numbers and lines to 10,000", "Firefox", "placement", off_css(number_held, line_held)),
    ("Firefox holds repetitions to 10,000 tracks", "Firefox", "repetitions", firefox_holds_repetitions),
    ("Firefox holds the explicit count to 10,000", "Firefox", "explicit count", firefox_holds_count),
]


def explanation(asked, browser, finding):
    """The name of what explains a difference, None where nothing does."""
    for name, of, what, test in OWN:
        if of == browser and what == finding.what and test(asked, finding):
            return name
    return None
