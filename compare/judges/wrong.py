"""Wrong readings of documents 01 and 02, each put into the model in place of one small function."""
import contextlib
import math
from dataclasses import replace
from unittest import mock

import binary32
import cursor
import history
import model
import placing
import reader
import resize
import rules
from reader import Size, Track
from rules import FURTHEST, Names


def spares_from_the_start(axis):
    return rules.spare_sizes(axis, axis.negative)


def lines_not_merged(self, name):
    return [line - 1 for line in sorted(self.entered.get(name, []) + self.drawn_edge(name))]


def lines_without_drawn_edge(self, name):
    return [line - 1 for line in sorted(set(self.entered.get(name, [])))]


def used_backwards(components, inner):
    return right_used_outside(list(reversed(components)), inner)


def used_by_adding(components, inner):
    """Every track added on its own instead of sum times count."""
    outside = [component for component in components if not component.automatic()]
    return binary32.total(rules.measure(track, inner) for component in outside
                          for _ in range(min(rules.times(component, 0), 2000)) for track in component.tracks)


def first_with_gaps_first(axis, repeat):
    gaps = min(rules.tracks_outside(axis.components), FURTHEST) + len(repeat.tracks) - 1
    used = binary32.add(rules.used_outside(axis.components, axis.inner), binary32.multiply(float(gaps), rules.gap_size(axis)))
    return binary32.add(used, rules.repetition_used(repeat, axis.inner))


def first_with_all_gaps(axis, repeat):
    gaps = rules.tracks_outside(axis.components) + len(repeat.tracks) - 1
    tracks = binary32.add(rules.used_outside(axis.components, axis.inner), rules.repetition_used(repeat, axis.inner))
    return binary32.add(tracks, binary32.multiply(float(gaps), rules.gap_size(axis)))


def always_floor(value, rule):
    return right_whole_part(value, "max")


def sum_raised(repeat, inner):
    return max(rules.sum_of(repeat, inner), rules.THINNEST)


def only_zero_raised(track, inner):
    return rules.measure(track, inner) or rules.THINNEST


def percentages_not_raised(track, inner):
    by_percentage = "pct" in (track.minimum.kind, track.maximum.kind)
    return rules.measure(track, inner) if by_percentage else right_repeated_measure(track, inner)


def taken_as_one(track, inner):
    return rules.THINNEST


def first_not_raised(axis, repeat):
    with mock.patch.object(rules, "repeated_measure", rules.measure):
        return right_first_used(axis, repeat)


def raised_outside(component, inner):
    return binary32.total(right_repeated_measure(track, inner) for track in component.tracks)


def gap_raised(axis):
    return max(right_gap_size(axis), rules.THINNEST)


def records_raised(axis):
    """The tracks of the automatic repeat written into the records as 1 where they were taken as 1."""
    one = Size("len", binary32.to_bits(rules.THINNEST))
    thin = {id(track) for component in axis.components if component.automatic() for track in component.tracks
            if axis.inner is not None and rules.has_fixed_kind(track) and rules.measure(track, axis.inner) < rules.THINNEST}
    return [(Track(one, one) if id(track) in thin else track, fit) for track, fit in right_written_out(axis)]


def minimum_ignored(track, inner):
    maximum = rules.definite(track.maximum, inner)
    return rules.definite(track.minimum, inner) if maximum is None else maximum


def limit_is_definite(size, inner):
    return size.value() if size.kind == "fitl" else right_definite(size, inner)


def floor_of_limit(before, tracks):
    return max(1, (FURTHEST - before) // tracks)


def no_shift(line, component, written):
    return line + written * len(component.tracks)


def tested_before(line, component, count):
    tracks = len(component.tracks)
    if line > FURTHEST:
        return 0
    return count if tracks == 0 else min(count, (FURTHEST - line) // tracks)


def last_unheld(self, last):
    return last


def span_from_unheld(self, name, number, line, which):
    line = line - 1 if line > 0 else line + self.explicit + 1
    if which == 1:
        reached = self.forward(name, line + 1, max(number, 1))
    else:
        reached = self.backward(name, line - 1, max(number, 1))
    return "line", rules.grid_line(rules.held(reached), self.explicit)


def suffixed_has_no_area(self, name, index, end):
    if index == 0 and name.endswith(rules.SUFFIXES):
        index = 1
    return right_named_line(self, name, index, end)


def other_end_of_area(self, name, index, end):
    return right_named_line(self, name, index, 0)


def highest_edge(self, area, end):
    return max(self.lines(area + rules.SUFFIXES[end]), default=None)


def missing_after_last_name(self, name, first, index):
    lines = [line for line in self.lines(name) if line >= max(first, 0)]
    if index <= len(lines):
        return lines[index - 1]
    last = max([max(first, 0) - 1, self.explicit] + lines)
    return last + index - len(lines)


def entries_of_invalid_kept(axis):
    with mock.patch.object(rules, "counts_as_none", no_components):
        return right_written_entries(axis)


def singles_of_invalid_kept(axis):
    with mock.patch.object(rules, "counts_as_none", no_components):
        return right_written_out(axis)


def no_components(axis):
    return not axis.components


def count_of_0_is_valid(axis):
    counts = [1 if component.count == 0 else component.count for component in axis.components]
    return right_counts_as_none(replace(axis, components=[replace(component, count=count) for component, count in zip(axis.components, counts)]))


def names_alone_count(axis):
    return right_counts_as_none(axis) and bool(axis.components)


def areas_dropped_with_the_template(panel, letter):
    return 0 if rules.counts_as_none(panel.axes[letter]) and panel.axes[letter].components else right_area_count(panel, letter)


def counted_before_validity(axis):
    """The tracks of a template, whether it is valid or not."""
    automatic = rules.repetitions(axis)
    return sum(rules.written_tracks(component, automatic) for component in axis.components)


def crowded_before_validity(axis):
    with mock.patch.object(rules, "counts_as_none", no_components):
        return right_entry_count(axis)


def repeated_names_kept(entries, explicit):
    lists = [[] for _ in range(explicit + 1)] if entries else []
    for line, name in entries:
        if line <= explicit + 1:
            lists[line - 1].append(name)
    return lists


def no_lists_where_all_empty(entries, explicit):
    lists = right_line_names(entries, explicit)
    return lists if any(lists) else []


def first_entry_only(self, entries, areas, letter, explicit):
    right_names(self, entries[:1], areas, letter, explicit)


def columns_only(self, entries, areas, letter, explicit):
    right_names(self, entries if letter == "c" else [], areas, letter, explicit)


def areas_after_positive(axis, explicit):
    """The spares of the positive run given to implicit tracks first."""
    template = rules.written_out(axis)[:explicit]
    made = explicit - len(template)
    sizes = rules.spare_sizes(axis, made + axis.positive)
    sizes = sizes[axis.positive:] + sizes[:axis.positive]
    plain = lambda tracks: [(track, False) for track in tracks]
    return plain(rules.negative_sizes(axis)) + template + plain(sizes)


def last_gutter_stays(tracks, collapsed):
    gutters = [True] + collapsed[:]
    gutters[-1] = True
    return gutters


def item_from_explicit(axis, place):
    return place - axis.negative in axis.items


def span_zero_is_zero(self, name, number, line, which):
    if number == 0:
        return "line", line
    return right_span_from(self, name, number, line, which)


def later_areas_dropped(sheet, display=False):
    """Areas that share a cell with an earlier one left out of what is displayed."""
    panel, line_after = right_read_lines(sheet, display)
    kept = {}
    for name, area in panel.areas.items():
        if not reader.first_sharing(kept.values(), area):
            kept[name] = area
    panel.areas = kept
    return panel, line_after


# What the wrong functions lean on, before any is put in place.
right_repeated_measure = rules.repeated_measure
right_first_used = rules.first_used
right_gap_size = rules.gap_size
right_used_outside = rules.used_outside
right_whole_part = rules.whole_part
right_definite = rules.definite
right_named_line = Names.named_line
right_span_from = Names.span_from
right_written_entries = rules.written_entries
right_line_names = rules.line_names
right_written_out = rules.written_out
right_counts_as_none = rules.counts_as_none
right_area_count = rules.area_count
right_entry_count = rules.entry_count
right_names = Names.__init__

# Each wrong reading: where it is put, and what.
right_picture_count = rules.picture_count

FOUND_BY_THE_RUST = {
    "negative spares aligned from the start": (rules, "negative_sizes", spares_from_the_start),
    "a line counted twice where area and entry share it": (Names, "lines", lines_not_merged),
    "the drawn edge left out of a name's lines": (Names, "lines", lines_without_drawn_edge),
    "the sum taken in the other order": (rules, "used_outside", used_backwards),
    "a counted repeat added track by track": (rules, "used_outside", used_by_adding),
    "the gaps added before the repetition": (rules, "first_used", first_with_gaps_first),
    "the gaps of tracks past 10,000 counted": (rules, "first_used", first_with_all_gaps),
    "doubles instead of f32": (binary32, "rounded", float),
    "floor also for rule min": (rules, "whole_part", always_floor),
    "no thin track raised": (rules, "repeated_measure", rules.measure),
    "the sum of a repetition raised instead of its tracks": (rules, "repetition_used", sum_raised),
    "only tracks of 0 raised": (rules, "repeated_measure", only_zero_raised),
    "percentages not raised": (rules, "repeated_measure", percentages_not_raised),
    "every track of the repeat taken as 1": (rules, "repeated_measure", taken_as_one),
    "thin tracks not raised in the first repetition": (rules, "first_used", first_not_raised),
    "thin tracks outside the repeat raised": (rules, "sum_of", raised_outside),
    "thin gaps raised": (rules, "gap_size", gap_raised),
    "the records of thin tracks raised": (rules, "written_out", records_raised),
    "the maximum not raised to the minimum": (rules, "measure", minimum_ignored),
    "a fit-content limit taken as definite": (rules, "definite", limit_is_definite),
    "the most repetitions by floor": (rules, "most_repetitions", floor_of_limit),
    "no shift after a repeat written no times": (rules, "line_after_repeat", no_shift),
    "the stop tested before a repetition": (rules, "times_written", tested_before),
    "counting back sees names past the end": (Names, "last_looked_at", last_unheld),
    "a line not held before a span": (Names, "span_from", span_from_unheld),
    "a span of 0 stays where it is": (Names, "span_from", span_zero_is_zero),
    "index 0 of a suffixed name is index 1": (Names, "named_line", suffixed_has_no_area),
    "index 0 takes the start edge at both ends": (Names, "named_line", other_end_of_area),
    "the highest line of an edge wins": (Names, "area_edge", highest_edge),
    "missing lines counted after the last name": (Names, "forward", missing_after_last_name),
    "entries of an invalid template kept": (rules, "written_entries", entries_of_invalid_kept),
    "singles of an invalid template written": (rules, "written_out", singles_of_invalid_kept),
    "a written count of 0 valid": (rules, "counts_as_none", count_of_0_is_valid),
    "names without a track used": (rules, "counts_as_none", names_alone_count),
    "areas dropped with an invalid template": (rules, "area_count", areas_dropped_with_the_template),
    "the explicit count from tracks that don't count": (rules, "template_count", counted_before_validity),
    "8 by entries that don't count": (rules, "entry_count", crowded_before_validity),
    "an area that shares a cell not displayed": (reader, "read_lines", later_areas_dropped),
    "names kept from the first entry only": (Names, "__init__", first_entry_only),
    "names kept from the columns only": (Names, "__init__", columns_only),
    "a name listed twice on a line": (rules, "line_names", repeated_names_kept),
    "no lists where every list is empty": (rules, "line_names", no_lists_where_all_empty),
    "tracks of areas after the positive ones": (rules, "all_tracks", areas_after_positive),
    "the gutter before trailing collapsed tracks stays": (rules, "collapsed_gutters", last_gutter_stays),
    "items counted from the first explicit track": (rules, "holds_item", item_from_explicit),
    "the width of a picture not counted": (rules, "picture_count", lambda picture, letter: len(picture) if letter == "r" else 0),
    "the rows of a picture not counted": (rules, "picture_count", lambda picture, letter: right_picture_count(picture, letter) if letter == "c" else 0),
    "one row more than a picture has": (rules, "picture_count", lambda picture, letter: right_picture_count(picture, letter) + (letter == "r" and bool(picture))),
    "rows and width of a picture swapped": (rules, "picture_count", lambda picture, letter: right_picture_count(picture, "c" if letter == "r" else "r")),
}


# Wrong sources of tracks, of which the Rust has none: found by CSS's account of explicit and implicit tracks.

def areas_are_positive(axis, explicit):
    template = rules.written_sources(axis)[:explicit]
    return ["n"] * axis.negative + template + ["p"] * (explicit - len(template) + axis.positive)


def one_area_more(axis, explicit):
    sources = right_sources(axis, explicit)
    end = axis.negative + explicit
    return sources[:end] + ["g"] * (axis.positive > 0) + sources[end + 1:]


def sources_by(is_automatic):
    """Another reading of what an automatic repeat is."""
    def written(axis):
        automatic = rules.repetitions(axis)
        return [letter for component in axis.components
                for letter in ("a" if is_automatic(component) else "t") * min(rules.written_tracks(component, automatic), FURTHEST)]
    return written


right_sources = rules.sources


# Wrong readings of areas that share a cell: found by CSS's cells.

def touching_shares(one, other):
    return all(one.edges(letter)[0] <= other.edges(letter)[1] and other.edges(letter)[0] <= one.edges(letter)[1] for letter in "cr")


def shares_on(letter):
    """Areas compared on one axis only."""
    return lambda one, other: one.edges(letter)[0] < other.edges(letter)[1] and other.edges(letter)[0] < one.edges(letter)[1]


def starts_inside(one, other):
    """Only the corner of the later area looked at."""
    return all(one.edges(letter)[0] <= other.edges(letter)[0] < one.edges(letter)[1] for letter in "cr")


def the_area_before(areas, area):
    return len(areas) if areas and reader.share_a_cell(areas[-1], area) else 0


def the_last_sharing(areas, area):
    return max((number for number, earlier in enumerate(areas, start=1) if reader.share_a_cell(earlier, area)), default=0)


def smallest_earlier_first(areas):
    """The pair (1, 4) before (2, 3)."""
    pairs = [(reader.first_sharing(areas[:number - 1], area), number) for number, area in enumerate(areas, start=1)]
    return min((pair for pair in pairs if pair[0]), default=reader.NO_PAIR)


def no_pair_displayed(areas):
    return reader.NO_PAIR


def a_pair_of_any_two(areas):
    return (1, 2) if len(areas) > 1 else reader.NO_PAIR


def numbered_from_0(areas):
    earlier, later = right_first_pair(areas)
    return max(0, earlier - 1), max(0, later - 1)


right_first_sharing = reader.first_sharing
right_first_pair = reader.first_pair


# Pictures: which cells of a name form an area, and which.

def bounding_box(cells):
    rows, columns = zip(*cells)
    return reader.Area(min(rows), max(rows) + 1, min(columns), max(columns) + 1)


def by_columns_of_each_row(cells):
    """Each row's cells side by side between the same columns, but rows may be missing."""
    rows = {row: sorted(column for at, column in cells if at == row) for row, _ in cells}
    runs = {tuple(columns) for columns in rows.values()}
    columns = runs.pop()
    return None if runs or columns != tuple(range(columns[0], columns[-1] + 1)) else bounding_box(cells)


def by_the_same_columns(cells):
    """The same columns in each row, but some between them may be missing."""
    rows = {row: sorted(column for at, column in cells if at == row) for row, _ in cells}
    return bounding_box(cells) if len(set(map(tuple, rows.values()))) == 1 and len(rows) == max(rows) - min(rows) + 1 else None


def by_the_first_row(cells):
    """The columns of the first row, whatever the others have."""
    first = min(row for row, _ in cells)
    area = bounding_box({cell for cell in cells if cell[0] == first})
    return replace(area, row_end=max(row for row, _ in cells) + 1)


def edges_swapped(cells):
    area = right_area_of(cells)
    return area and reader.Area(area.column_start, area.column_end, area.row_start, area.row_end)


def in_order_of_name(picture):
    areas = right_areas_of(picture)
    return None if areas is None else dict(sorted(areas.items()))


right_area_of = reader.area_of
right_areas_of = reader.areas_of

FOUND_BY_CSS = {
    "a track that only an area makes positive": (rules, "sources", areas_are_positive),
    "the first positive track an area's": (rules, "sources", one_area_more),
    "a counted repeat automatic": (rules, "written_sources", sources_by(lambda component: component.count is not None)),
    "only `fit` an automatic repeat": (rules, "written_sources", sources_by(lambda component: component.count == "fit")),
    "only `fill` an automatic repeat": (rules, "written_sources", sources_by(lambda component: component.count == "fill")),
    "areas that touch share a cell": (reader, "share_a_cell", touching_shares),
    "only rows compared": (reader, "share_a_cell", shares_on("r")),
    "only columns compared": (reader, "share_a_cell", shares_on("c")),
    "only the later area's first cell looked at": (reader, "share_a_cell", starts_inside),
    "only the area before compared": (reader, "first_sharing", the_area_before),
    "the last earlier area that shares a cell": (reader, "first_sharing", the_last_sharing),
    "the pair with the smallest earlier area": (reader, "first_pair", smallest_earlier_first),
    "no pair where areas that share a cell are displayed": (reader, "first_pair", no_pair_displayed),
    "a pair where no areas share a cell": (reader, "first_pair", a_pair_of_any_two),
    "areas numbered from 0": (reader, "first_pair", numbered_from_0),
    "the box around a name's cells, filled or not": (reader, "area_of", bounding_box),
    "a name again after a gap of rows": (reader, "area_of", by_columns_of_each_row),
    "a second run of a name in a row": (reader, "area_of", by_the_same_columns),
    "the columns of a name's first row": (reader, "area_of", by_the_first_row),
    "rows and columns of a picture swapped": (reader, "area_of", edges_swapped),
    "the areas of a picture in order of name": (reader, "areas_of", in_order_of_name),
}


def without_fault(number):
    """A reader that never sees a fault."""
    class Blind(set):
        def add(self, found):
            if found != number:
                super().add(found)

    def made(self, fields):
        right_fields(self, fields)
        self.faults = Blind()
    return made


def end_without_feed(sheet, display=False):
    return right_read_lines(sheet if sheet.endswith(b"\n") or not sheet else sheet + b"\n", display)


def fault_order(*order):
    """The first of a line's faults in another order."""
    return lambda faults: min(faults, key=order.index)


def the_earlier_line(sheet, display=False):
    """A refusal by 12 at the earlier area's line."""
    try:
        return right_read_lines(sheet, display)
    except reader.Refused as refused:
        if refused.number == reader.OVERLAP:
            earlier, later = refused.pair
            raise reader.Refused(reader.OVERLAP, refused.line - later + earlier, refused.pair)
        raise


def held_before_it_is_compared(areas, area):
    """A 65th area, which is never held, not compared."""
    return 0 if len(areas) >= reader.MOST["area"] else right_first_sharing(areas, area)


def line_before_name(state, letter, line, name, stores=model.FULL_STORES):
    if not model.ENTERED_LINES[0] <= line <= model.ENTERED_LINES[1]:
        return reader.COUNT
    return right_enter(state, letter, line, name, stores)


def bytes_of_invalid_free(self, panel):
    """The bytes of a template that counts as none not used."""
    right_state(self, panel)
    self.used = {letter: 0 if rules.counts_as_none(panel.axes[letter]) else self.used[letter] for letter in model.LETTERS}


def store_by_entries(self, panel):
    """The store counted by written-out entries instead of `name` records."""
    right_state(self, panel)
    self.used = {letter: sum(len(name) for _, name in self.entries[letter]) for letter in model.LETTERS}


right_enter = model.enter
right_state = model.State.__init__
right_fields = reader.Fields.__init__
right_read_lines = reader.read_lines


def dots_up_to(most):
    return lambda word: right_is_dots(word) and len(word) <= most


def late_after(**others):
    """Other kinds after which a line is late."""
    return {**reader.LATE_AFTER, **others}


def broken_at(where):
    """A refusal by 14 at another line, by the lines of the sheet and the one it is given at."""
    def read_lines(sheet, display=False):
        try:
            return right_read_lines(sheet, display)
        except reader.Refused as refused:
            if refused.number == reader.BROKEN:
                raise reader.Refused(reader.BROKEN, where(sheet, refused.line))
            raise
    return read_lines


def first_broken_row(sheet, line):
    """The first row at which the rows so far are broken."""
    rows = []
    for number, text in enumerate(sheet.split(b"\n")[:line], start=1):
        fields = text.decode("latin-1").split("\t")
        rows += [fields[1:]] if fields[0] == "row" else []
        if reader.areas_of(rows) is None:
            return number
    return line


def ended_by(*words):
    """The last row before the first line that is no row, or before one of these kinds."""
    def last_row(lines):
        found = 0
        for number, text in enumerate(lines, start=1):
            fields = text.split(b"\t")
            if reader.is_of_form(fields) and fields[0] == b"row":
                found = number
            elif found and (not reader.is_of_form(fields) or fields[0] in words):
                return found
        return right_last_row(lines)
    return last_row


def last_of_all_rows(lines):
    return max((number for number, text in enumerate(lines, start=1) if text.startswith(b"row\t")), default=0)


def any_number_of_words(self):
    words = right_words(self)
    self.faults.discard(reader.COUNT)
    return words


def no_area_of_the_picture(panel, line):
    """A picture whose names an area record may bear again."""
    right_end_picture(panel, line)
    panel.areas = {name + " ": area for name, area in panel.areas.items()}


right_is_dots = reader.is_dots
right_words = reader.Fields.words
right_end_picture = reader.end_picture
right_last_row = reader.last_row


# Readings of the sheet, of which the Rust says nothing: found by what a damage was made for.
FOUND_BY_DAMAGE = {
    "the highest number of a line first": (reader, "first_fault", max),
    "a last line without a line feed read": (reader, "read_lines", end_without_feed),
    **{f"refusal {number} never given at a line": (reader.Fields, "__init__", without_fault(number))
       for number in (1, 2, 3, 4, 5, 6, 7, 8, 12, 13)},
    "12 after 8": (reader, "first_fault", min),
    "12 before 7": (reader, "first_fault", fault_order(1, 2, 3, 4, 5, 6, 12, 7, 8, 13)),
    "12 before 6": (reader, "first_fault", fault_order(1, 2, 3, 4, 5, 12, 6, 7, 8, 13)),
    "12 at the earlier area's line": (reader, "read_lines", the_earlier_line),
    "a 65th area not compared": (reader, "first_sharing", held_before_it_is_compared),
    "13 before 8": (reader, "first_fault", fault_order(1, 2, 3, 4, 5, 6, 7, 13, 12, 8)),
    "13 before 7": (reader, "first_fault", fault_order(1, 2, 3, 4, 5, 6, 13, 7, 12, 8)),
    "13 before 2": (reader, "first_fault", fault_order(1, 13, 2, 3, 4, 5, 6, 7, 12, 8)),
    "one dot for an empty cell": (reader, "is_dots", dots_up_to(1)),
    "at most 32 dots for an empty cell": (reader, "is_dots", dots_up_to(32)),
    "dots a name": (reader, "is_dots", lambda word: False),
    "an empty word an empty cell": (reader, "is_dots", lambda word: not word.strip(".")),
    "14 at the first row that breaks": (reader, "read_lines", broken_at(first_broken_row)),
    "14 at the line after the last": (reader, "read_lines", broken_at(lambda sheet, line: sheet.count(b"\n") + 1)),
    "a picture ended by a line of no form": (reader, "last_row", ended_by()),
    "a picture ended by an axis line": (reader, "last_row", ended_by(b"axis")),
    "14 at the last row, late or not": (reader, "last_row", last_of_all_rows),
    "a row longer than the first accepted": (reader, "is_unequal", lambda picture, words: len(picture) > 0 and len(words) < len(picture[0])),
    "65 names accepted": (reader, "is_crowded", lambda names: len(names) > 65),
    "any number of words": (reader.Fields, "words", any_number_of_words),
    "a row after an area accepted": (reader, "LATE_AFTER", late_after(row={reader.THE_REST})),
    "an area after a row accepted": (reader, "LATE_AFTER", late_after(area={reader.THE_REST})),
    "an axis line after a row accepted": (reader, "LATE_AFTER", late_after(axis={"area", reader.THE_REST})),
    "plain spans of a cell from 0": (reader, "CELL_SPANS", (0, 32)),
    "plain spans of a cell to 65,535": (reader, "CELL_SPANS", (1, 65535)),
    "256 cells beside 256 placements": (reader, "is_full", lambda panel: max(len(panel.cells), len(panel.placements) - 2 * len(panel.cells)) >= 256),
    "a cell counted as two": (reader, "is_full", lambda panel: len(panel.placements) >= 256),
    "a picture's name free for an area": (reader, "end_picture", no_area_of_the_picture),
}


# Readings of the entry call, found by the recount.
FOUND_BY_RECOUNT = {
    "an entered line tested before the name": (model, "enter", line_before_name),
    "the store filled by written-out entries": (model.State, "__init__", store_by_entries),
    "the bytes of an invalid template free": (model.State, "__init__", bytes_of_invalid_free),
}


def outside_at_the_limit(line):
    return abs(line) >= FURTHEST


def never_outside(line):
    return False


def mark_of_the_line_reached(self, ends, which):
    """A span without the mark of the line beside it."""
    end, other = ends[which], ends[1 - which]
    if end.kind != "nspan":
        return self.line_mark(end, which)
    kind, number = self.found(other, 1 - which)
    return kind == "line" and number != 0 and rules.lies_outside(self.counted(end.name, end.number, number, which))


def mark_of_the_start(self, placement):
    return [right_marks(self, placement)[0]] * 2


def marks_swapped(self, placement):
    return right_marks(self, placement)[::-1]


def no_conversion_mark(grid_line, explicit):
    return False


def marked_past_the_end(self, end, which):
    """A line counted past the explicit end marked."""
    if end.kind != "named":
        return right_line_mark(self, end, which)
    return not 0 <= self.named_line(end.name, end.number, which) <= self.explicit


right_marks = Names.marks
right_line_mark = Names.line_mark

# Readings of marks, which the Rust doesn't have: found by the library's answers alone.
FOUND_BY_THE_LIBRARY = {
    "a mark at the limit": (rules, "lies_outside", outside_at_the_limit),
    "no mark at all": (rules, "lies_outside", never_outside),
    "a span without the other end's mark": (Names, "mark", mark_of_the_line_reached),
    "the start's mark for both ends": (Names, "marks", mark_of_the_start),
    "the marks swapped": (Names, "marks", marks_swapped),
    "a written line without its mark": (rules, "conversion_mark", no_conversion_mark),
    "a mark for each line past the explicit end": (Names, "line_mark", marked_past_the_end),
}


# Readings of the cursor: found by the edges whose answers are written by hand.

def last_least(distances):
    return len(distances) - 1 - distances[::-1].index(min(distances))


def held_lines(settled, explicit):
    """Lines held again."""
    lines = right_own_lines(settled, explicit)
    return lines and tuple(map(rules.held, lines))


def line_0_is_line_1(settled, explicit):
    return right_own_lines([(kind, number or 1) if kind == "line" else (kind, number) for kind, number in settled], explicit)


def ends_left_out(position, low, high):
    return low < position < high


def span_ends_swapped(position, low, high):
    return min(low, high) <= position <= max(low, high)


def on_an_end_too(start, line, end):
    return start <= line <= end


def not_swapped(start, end):
    return (start, start + 1) if start == end else (start, end)


def equal_span_nothing(start, end):
    return min(start, end), max(start, end)


def equal_span_back(start, end):
    """Equal lines span the track before them."""
    return (start - 1, start) if start == end else (min(start, end), max(start, end))


def explicit_lines_alone(self, line):
    return 0 <= line <= self.explicit


def ends_of_tracks_before(starts):
    """A line at the end of the track before it."""
    return starts[0:-1:2]


def gutters_have_no_width(axis, explicit):
    return [0.0 if index % 2 == 0 else measured for index, measured in enumerate(right_record_measures(axis, explicit))]


def collapsed_as_written(axis, explicit):
    with mock.patch.object(rules, "holds_item", lambda axis, place: True):
        return right_record_measures(axis, explicit)


def percentage_of_nothing(size, inner):
    return rules.definite(size, 0.0 if inner is None else inner)


def limit_has_a_size(size, inner):
    return size.value() if size.kind == "fitl" else right_cursor_definite(size, inner)


def minimum_alone(track, inner):
    return cursor.definite(track.minimum, inner)


def thin_is_one(track, inner):
    measured = right_cursor_measure(track, inner)
    return None if measured is None else max(measured, rules.THINNEST)


def distance_exact(position, at):
    return abs(position - at)


def indefinite_first(self, items, stores=()):
    return reader.INDEFINITE if self.positions is None else right_refusal(self, items, stores)


def stores_not_looked_at(self, items, stores=()):
    return right_refusal(self, items)


def items_not_looked_at(self, items, stores=()):
    return right_refusal(self, self.tracks, stores)


def every_axis_listed(state, letter, axis, is_hit):
    """Placements of the other axis too."""
    names = state.names(letter)
    lines = [cursor.own_lines(names.resolve(placement), axis.explicit) for placement in state.panel.placements]
    return [number for number, own in enumerate(lines) if own and all(map(axis.has, own)) and is_hit(*own)]


def numbered_within_the_axis(state, letter, axis, is_hit):
    own = [number for number, placement in enumerate(state.panel.placements) if placement.axis == letter]
    return [own.index(number) for number in right_listed(state, letter, axis, is_hit)]


def any_bits(bits):
    return True


def minus_zero_too(bits):
    return bits == 0x80000000 or right_is_length(bits)


right_own_lines = cursor.own_lines
right_record_measures = cursor.record_measures
right_cursor_definite = cursor.definite
right_cursor_measure = cursor.measure
right_refusal = cursor.Axis.refusal
right_listed = cursor.listed
right_is_length = cursor.is_length

FOUND_BY_EDGES = {
    "the higher line on a tie": (cursor, "first_least", last_least),
    "lines held again": (cursor, "own_lines", held_lines),
    "line 0 taken as line 1": (cursor, "own_lines", line_0_is_line_1),
    "the ends of a span left out": (cursor, "lies_within", ends_left_out),
    "the ends of a span swapped": (cursor, "lies_within", span_ends_swapped),
    "a given line on an end listed": (cursor, "lies_between", on_an_end_too),
    "reversed lines in no list": (cursor, "in_order", not_swapped),
    "equal lines spanning nothing": (cursor, "in_order", equal_span_nothing),
    "equal lines spanning the track before": (cursor, "in_order", equal_span_back),
    "only explicit lines on the grid": (cursor.Axis, "has", explicit_lines_alone),
    "a line at the end of the track before it": (cursor, "line_positions", ends_of_tracks_before),
    "gutters without width": (cursor, "record_measures", gutters_have_no_width),
    "collapsed tracks as written": (cursor, "record_measures", collapsed_as_written),
    "a percentage without an inner size as 0": (cursor, "definite", percentage_of_nothing),
    "a fit-content limit as a size": (cursor, "definite", limit_has_a_size),
    "a track measured by its minimum": (cursor, "measure", minimum_alone),
    "thin tracks measured as 1": (cursor, "measure", thin_is_one),
    "distances that are not rounded": (cursor, "distance", distance_exact),
    "11 before 10": (cursor.Axis, "refusal", indefinite_first),
    "short stores not refused": (cursor.Axis, "refusal", stores_not_looked_at),
    "short items not refused": (cursor.Axis, "refusal", items_not_looked_at),
    "placements of both axes listed": (cursor, "listed", every_axis_listed),
    "placements numbered within their axis": (cursor, "listed", numbered_within_the_axis),
    "any cursor answered": (cursor, "is_length", any_bits),
    "minus zero a length": (cursor, "is_length", minus_zero_too),
}


# Readings of the least resize: found by the edges too.

def narrower_first(size):
    for change in range(1, 65536):
        yield from (other for other in (size - change, size + change) if other in resize.SIZES)


def wider_only(size):
    return range(size + 1, 65536)


def largest_left_out(size):
    return (other for other in right_outward(size) if other != 65535)


def at_percentages_of_now(axis, size):
    """Percentages of the size now."""
    fix = lambda size: Size("len", binary32.to_bits(binary32.multiply(size.value(), axis.inner))) if size.kind == "pct" else size
    fixed = lambda component: replace(component, tracks=[Track(fix(track.minimum), fix(track.maximum)) for track in component.tracks])
    return right_count_at(replace(axis, components=list(map(fixed, axis.components))), size)


def as_if_rising(axis, sizes):
    """Wider sizes looked at for a higher count alone, narrower ones for a lower one."""
    now, counts = resize.count_at(axis, int(axis.inner)), ((size, resize.count_at(axis, size)) for size in sizes)
    return next((size for size, count in counts if count != now and (count > now) == (size > axis.inner)), None)


def refused_sizes_left_out(axis, sizes):
    """Sizes at which the explicit count would be above 10,000 left out."""
    return right_first_other(axis, (size for size in sizes if rules.template_count(replace(axis, inner=float(size))) <= FURTHEST))


def the_change(axis):
    number, size = right_least_resize(axis)
    return number, size if size is None else abs(size - int(axis.inner))


def asked_if(**others):
    """An axis asked as if it had other fields, None for what it has."""
    def is_asked(axis):
        return right_is_asked(replace(axis, **{name: change(axis) for name, change in others.items()}))
    return is_asked


def any_gap(axis):
    return rules.ZERO


def whole_part_of(axis):
    return None if axis.inner is None else float(math.floor(axis.inner))


def without_empty(axis):
    """A written count of 0 and a repeat of no tracks passed over."""
    return [component for component in axis.components if component.tracks and component.count != 0]


right_outward = resize.outward
right_count_at = resize.count_at
right_first_other = resize.first_other
right_least_resize = resize.least_resize
right_is_asked = resize.is_asked

FOUND_BY_EDGES.update({
    "narrower first": (resize, "outward", narrower_first),
    "wider only": (resize, "outward", wider_only),
    "size 65,535 left out": (resize, "outward", largest_left_out),
    "percentages of the size now": (resize, "count_at", at_percentages_of_now),
    "the count as if it rose with the size": (resize, "first_other", as_if_rising),
    "sizes at which the panel would be refused left out": (resize, "first_other", refused_sizes_left_out),
    "the change answered instead of the size": (resize, "least_resize", the_change),
    "a percent gap accepted": (resize, "is_asked", asked_if(gap=any_gap)),
    "a size cut to whole": (resize, "is_asked", asked_if(inner=whole_part_of)),
    "a template that counts as none accepted": (resize, "is_asked", asked_if(components=without_empty)),
})


# Readings of automatic placing: found by the edges too.

def not_in_order(start, end):
    return (start, None) if start == end else (start, end)


def equal_dropped(start, end):
    """Of two equal lines both dropped."""
    return (None, None) if start is not None and start == end else right_in_order(start, end)


def equal_kept(start, end):
    return (min(start, end), max(start, end)) if start is not None and end is not None else (start, end)


def end_of_two_spans(settled, explicit):
    """Of two spans the start's dropped."""
    kinds = [kind for kind, _ in settled]
    return right_side([("auto", 0), settled[1]] if kinds == ["span", "span"] else settled, explicit)


def end_alone_first(settled, explicit):
    """An end alone taken as the first line."""
    found = right_side(settled, explicit)
    alone = settled[1][0] == "line" and settled[1][1] != 0 and found.lines and found.lines[1] == placing.line_number(settled[1][1], explicit)
    return placing.Side((found.lines[1], found.lines[1] + 1), 1) if alone and settled[0][0] == "auto" else found


def span_before_a_line_1(settled, explicit):
    kinds = [kind for kind, _ in settled]
    return right_side([("auto", 0), settled[1]] if kinds == ["span", "line"] and settled[1][1] else settled, explicit)


def zero_is_a_line(number, explicit):
    return 1 if number == 0 else right_line_number(number, explicit)


def zero_is_outside(number, explicit):
    return 0 if number == 0 else right_line_number(number, explicit)


def held_first(number, explicit):
    line = right_line_number(number, explicit)
    return None if line is None else max(1 - FURTHEST, min(FURTHEST + 1, line)) - (line > FURTHEST + 1)


def one_off(number, explicit):
    return explicit + 1 + number if number < 0 else right_line_number(number, explicit)


def refused_on_each_other(self, item):
    area = right_both_fixed(self, item)
    return None if area and self.in_way(area) else area


class OneCursor(dict):
    """One cursor for all rows."""

    def get(self, row, default):
        return super().get("any", default)

    def __setitem__(self, row, column):
        super().__setitem__("any", column)


def one_cursor_for_rows(self, columns, packing):
    right_placing(self, columns, packing)
    self.past = OneCursor()


def no_cursor_in_rows(self, item):
    self.past = {}
    return right_row_fixed(self, item)


def dense_keeps_a_rows_cursor(self, item):
    kept, self.packing = self.packing, placing.SPARSE
    area = right_row_fixed(self, item)
    self.packing = kept
    return area


def moved_from_above(self, item):
    """A row's cursor moved by items that begin above it."""
    area = right_row_fixed(self, item)
    if area:
        for row in range(area.row, min(area.row_end, area.row + 40)):
            self.past[row] = area.column_end
    return area


def rows_with_the_rest(items):
    """Items fixed in their row placed in sheet order with the rest."""
    found = {id(item): step for step, item in right_steps(items)}
    return [(step, item) for step, item in right_steps(items) if step is right_both_fixed] + \
        [(found[id(item)], item) for item in items if found[id(item)] is not right_both_fixed]


def in_sheet_order(items):
    found = {id(item): step for step, item in right_steps(items)}
    return [(found[id(item)], item) for item in items]


def row_stays(self, item):
    column, column_end = item.columns.lines
    if column < 1 or column_end > self.columns + 1:
        return None
    return self.down(self.row, item)


def row_goes_on_at_it(self, item):
    column, column_end = item.columns.lines
    if column < 1 or column_end > self.columns + 1:
        return None
    return self.down(self.row + 1 if column <= self.column else self.row, item)


def leaves_the_column(self, item):
    """A fixed column leaves the cursor's column as it was."""
    column = self.column
    area = right_by_cursor(self, item)
    if item.columns.lines and self.packing == placing.SPARSE:
        self.column = column
    return area


def dense_from_the_cursor(self, item):
    kept, self.packing = self.packing, placing.SPARSE
    area = right_by_cursor(self, item)
    self.packing = kept
    return area


def sparse_from_the_start(self, item):
    self.column = self.row = 1
    return right_by_cursor(self, item)


def last_column_unused(self, area):
    return right_fits(self, area) and area.column_end <= self.columns


def not_kept(self, item):
    """A fixed cell that nothing has to go around."""
    area = right_both_fixed(self, item)
    return area and Unseen(area.column, area.column_end, area.row, area.row_end)


class Unseen(placing.Area):
    def meets(self, other):
        return False


def one_past(self, column, item, row):
    """The search goes on one column past what is in the way."""
    while column + item.columns.span <= self.columns + 1:
        area = placing.Area(column, column + item.columns.span, row, row + item.rows.span)
        other = self.in_way(area)
        if other is None:
            return area
        column = other.column_end + 1
    return None


def first_line_first(items, columns, packing):
    """Refused at the first line that has no place instead of at the first in placing order."""
    try:
        return right_lands(items, columns, packing)
    except placing.Unplaced:
        for count in range(1, len(items) + 1):
            try:
                right_lands(items[:count], columns, packing)
            except placing.Unplaced:
                raise placing.Unplaced(items[count - 1].line)


right_in_order = placing.in_order
right_side = placing.side
right_line_number = placing.line_number
right_both_fixed = placing.Placing.both_fixed
right_row_fixed = placing.Placing.row_fixed
right_by_cursor = placing.Placing.by_cursor
right_placing = placing.Placing.__init__
right_fits = placing.Placing.fits
right_steps = placing.steps
right_lands = placing.lands
Placing = placing.Placing

FOUND_BY_EDGES.update({
    "ends of a cell not swapped": (placing, "in_order", not_in_order),
    "equal ends of a cell both dropped": (placing, "in_order", equal_dropped),
    "equal ends of a cell over no track": (placing, "in_order", equal_kept),
    "of two spans of a cell the end's": (placing, "side", end_of_two_spans),
    "an end alone as the first line": (placing, "side", end_alone_first),
    "a span before a line counted as 1": (placing, "side", span_before_a_line_1),
    "line 0 of a cell as line 1": (placing, "line_number", zero_is_a_line),
    "line 0 of a cell outside": (placing, "line_number", zero_is_outside),
    "lines of a cell held again": (placing, "line_number", held_first),
    "negative lines of a cell one off": (placing, "line_number", one_off),
    "fixed cells refused on each other": (Placing, "both_fixed", refused_on_each_other),
    "one cursor for all rows": (Placing, "__init__", one_cursor_for_rows),
    "no cursor in a row": (Placing, "row_fixed", no_cursor_in_rows),
    "dense packing with a row's cursor": (Placing, "row_fixed", dense_keeps_a_rows_cursor),
    "a row's cursor moved by cells from above": (Placing, "row_fixed", moved_from_above),
    "cells fixed in their row with the rest": (placing, "steps", rows_with_the_rest),
    "cells in sheet order": (placing, "steps", in_sheet_order),
    "a column before the cursor in the cursor's row": (Placing, "in_its_columns", row_stays),
    "a column at the cursor in the next row": (Placing, "in_its_columns", row_goes_on_at_it),
    "a fixed column leaves the cursor's column": (Placing, "by_cursor", leaves_the_column),
    "dense packing from the cursor": (Placing, "by_cursor", dense_from_the_cursor),
    "sparse packing from the start": (Placing, "by_cursor", sparse_from_the_start),
    "the last column unused": (Placing, "fits", last_column_unused),
    "fixed cells not in the way": (Placing, "both_fixed", not_kept),
    "one column past what is in the way": (Placing, "along", one_past),
    "the last row unused": (placing, "LAST_ROW_LINE", FURTHEST),
    "one row more": (placing, "LAST_ROW_LINE", FURTHEST + 2),
    "15 at the first line": (placing, "lands", first_line_first),
})


# Names that are tried.

def tried_on(entered_in):
    """A trial whose entry is made by another function of the copy, the axis, the line and the name."""
    def read(state, letter, line, name, packing, stores=model.FULL_STORES):
        entered = state.copied()
        number = entered_in(entered, letter, line, name, stores)
        return (number, [], []) if number else (0, model.all_settled_lines(entered), entered.lands(packing))
    return read


def on_the_other_axis(state, letter, line, name, stores):
    return model.enter(state, "r" if letter == "c" else "c", line, name, stores)


def one_line_further(state, letter, line, name, stores):
    return model.enter(state, letter, line + 1, name, stores)


def twice_entered(state, letter, line, name, stores):
    """A trial takes two entries."""
    return model.enter(state, letter, line, name, stores) or model.enter(state, letter, line, name, stores)


def no_edges_of_areas(state, letter, line, name, stores):
    """An edge of an area that is drawn stays where it is."""
    number = model.enter(state, letter, line, name, stores)
    base = next((name[:-len(end)] for end in (b"-start", b"-end") if name.endswith(end)), b"").decode("latin-1")
    if not number and base in state.panel.areas:
        state.entries[letter].pop()
    return number


def never_crowded(state, letter, line, name, stores):
    """A full axis is no refusal: the name is not kept anyway."""
    number = model.enter(state, letter, line, name, stores)
    return 0 if number == reader.CROWDED else number


def crowded_one_before(state, letter, line, name, stores):
    number = model.enter(state, letter, line, name, stores)
    return reader.CROWDED if not number and len(state.entries[letter]) == reader.MOST["entry"] else number


def known_names_not_crowded(state, letter, line, name, stores):
    """A name that lies on its line already takes no room."""
    if (line, name.decode("latin-1")) in state.entries[letter]:
        return 0
    return model.enter(state, letter, line, name, stores)


def short_before_crowded(state, letter, line, name, stores):
    number = model.enter(state, letter, line, name, stores)
    return reader.SHORT if number == reader.CROWDED and min(stores) < model.STORE_BYTES else number


def stores_not_needed(state, letter, line, name, stores):
    """A trial that keeps nothing lends no room."""
    return model.enter(state, letter, line, name)


def entered_in_the_panel(self):
    return self


def unplaced_first(state, *trial):
    """15 before the entry's refusals."""
    state.lands(trial[3])
    return right_try(state, *trial)


def unplaced_by_the_panel(state, *trial):
    """15 only where the panel's own cells have no place."""
    state.lands(trial[3])
    try:
        return right_try(state, *trial)
    except placing.Unplaced:
        return 0, model.all_settled_lines(state), state.lands(trial[3])


def lands_of_the_panel(state, *trial):
    number, settled, _ = right_try(state, *trial)
    return number, settled, [] if number else state.lands(trial[3])


def placements_of_the_panel(state, *trial):
    number, _, lands = right_try(state, *trial)
    return number, [] if number else model.all_settled_lines(state), lands


def settled_beside_15(state, *trial):
    """The settled placements are given, though a cell has no place."""
    try:
        return right_try(state, *trial)
    except placing.Unplaced:
        entered = state.copied()
        model.enter(entered, *trial[:3])
        return 0, model.all_settled_lines(entered), []


def without_cells(state, *trial):
    number, settled, lands = right_try(state, *trial)
    return number, [line for line in settled if line.startswith("place")], lands


def those_that_move(state, *trial):
    """Only the placements that the name moves."""
    number, settled, lands = right_try(state, *trial)
    before = model.all_settled_lines(state)
    return number, [line for line, held in zip(settled, before) if line != held], lands


def always_packed(packing):
    return lambda state, letter, line, name, _, stores=model.FULL_STORES: right_try(state, letter, line, name, packing, stores)


right_try = model.try_name

FOUND_BY_EDGES.update({
    "a name tried on the other axis": (model, "try_name", tried_on(on_the_other_axis)),
    "a name tried one line further": (model, "try_name", tried_on(one_line_further)),
    "two entries taken by a trial": (model, "try_name", tried_on(twice_entered)),
    "an edge of an area not tried": (model, "try_name", tried_on(no_edges_of_areas)),
    "a full axis not refused by a trial": (model, "try_name", tried_on(never_crowded)),
    "a trial crowded with an entry free": (model, "try_name", tried_on(crowded_one_before)),
    "a known name tried on a full axis": (model, "try_name", tried_on(known_names_not_crowded)),
    "a trial refused by 10 before 8": (model, "try_name", tried_on(short_before_crowded)),
    "short stores enough for a trial": (model, "try_name", tried_on(stores_not_needed)),
    "a tried name entered in the panel": (model.State, "copied", entered_in_the_panel),
    "15 before the refusals of an entry": (model, "try_name", unplaced_first),
    "15 of the panel without the name": (model, "try_name", unplaced_by_the_panel),
    "lands of the panel without the name": (model, "try_name", lands_of_the_panel),
    "placements of the panel without the name": (model, "try_name", placements_of_the_panel),
    "placements beside 15": (model, "try_name", settled_beside_15),
    "cells left out of the placements of a trial": (model, "try_name", without_cells),
    "a trial of those that move": (model, "try_name", those_that_move),
    "every trial packed sparsely": (model, "try_name", always_packed(placing.SPARSE)),
    "every trial packed densely": (model, "try_name", always_packed(placing.DENSE)),
})


# Readings of histories: found by the edges of them, and by the library.

right_texts_in = history.texts_in
right_settled = history.settled
right_written_out = history.written_out
right_calls_in = history.calls_in
right_with_lines = history.with_lines
right_after_the_lines = history.after_the_lines
right_enter_all = history.enter_all
right_settle_line = history.settle_line
right_edit = history.Session.edit
right_recall = history.Session.recall


def steps_dropped_by_a_refusal(self):
    self.last = self.step


def bytes_cleared_by_a_recall(self):
    _, place = right_texts_in(self.lines, self.step)
    self.lines[place:] = bytes([history.UNWRITTEN] * (len(self.lines) - place))


def bytes_after_the_last_line(self, place):
    """The bytes of dropped lines not given back."""
    try:
        return len(self.lines) - right_texts_in(self.lines, self.last)[1]
    except reader.Refused:
        return len(self.lines) - place


def line_feed_left_out(self, place, line):
    if self.free_bytes(place) < len(line) - 1:
        raise reader.Refused(reader.HISTORY_FULL, 0)


def one_byte_kept_free(self, place, line):
    if self.free_bytes(place) <= len(line):
        raise reader.Refused(reader.HISTORY_FULL, 0)


def room_looked_at_first(self, text):
    """16 before the refusals of the edit."""
    _, place = history.texts_in_sheet(self.sheet, self.lines, self.step)
    self.check_line(place, history.history_line(self.next_number(), text))
    right_edit(self, text)


def stores_looked_at_first(self, text):
    """10 before the refusals of the edit."""
    self.check_stores()
    right_edit(self, text)


def room_before_stores(self):
    """10 after 16: not before the line is seen to fit."""


def numbered_after_the_last(self):
    return self.last + 1


def numbered_from_0(number, text):
    return b"%d\t%s\n" % (number - 1, text)


def area_before_the_others(panel, text):
    number = right_settle_line(panel, text)
    if not number and text.startswith(b"area"):
        names = list(panel.areas)
        panel.areas = {name: panel.areas[name] for name in names[-1:] + names[:-1]}
    return number


def names_of_the_sheet(panel):
    """The names written out as they were before the edits."""
    state = right_written_out(panel)
    state.entries = {letter: list(history.entries_before[letter]) for letter in model.LETTERS}
    return state


def counts_of_the_sheet(letters):
    """The explicit counts left as they were before the edits, on these axes."""
    def written(panel):
        state = right_written_out(panel)
        for letter in letters:
            state.explicit[letter] = history.explicit_before[letter]
        return state
    return written


def with_state_before(written):
    """The same, what the sheet says noted first."""
    def settled(sheet, texts):
        before = model.Answer(sheet).state
        if before is None:
            return right_settled(sheet, texts)
        history.entries_before, history.explicit_before = before.entries, before.explicit
        with mock.patch.object(history, "written_out", written):
            return right_settled(sheet, texts)
    return settled


def entries_dropped_by_a_track(texts):
    """The direct entries before the last track lost."""
    last = max((place for place, text in enumerate(texts) if text.startswith(b"track")), default=0)
    right_calls_in(texts)
    return right_calls_in(texts[last:])


def entries_before_the_names(state, calls):
    number = right_enter_all(state, calls)
    for letter in model.LETTERS:
        direct = [(line, name) for of, line, name in state.accepted if of == letter]
        if direct:
            state.entries[letter] = direct + state.entries[letter][:-len(direct)]
    return number


def entries_not_counted(state, calls):
    """More than 4,096 entries taken."""
    with mock.patch.dict(reader.MOST, entry=10 ** 6):
        return right_enter_all(state, calls)


def faults_of_entries_alone(state, calls):
    """A refused direct entry passed over."""
    right_enter_all(state, calls)
    return 0


def sheet_not_counted_anew(panel):
    return reader.UNREAD if reader.is_open(panel) else 0


def last_line_told(sheet, texts):
    """A refused edit told at the line after the sheet's last."""
    try:
        return right_settled(sheet, texts)
    except reader.Refused as refused:
        raise reader.Refused(refused.number, sheet.count(b"\n") + 1, refused.pair) from refused


def pair_not_told(sheet, texts):
    try:
        return right_settled(sheet, texts)
    except reader.Refused as refused:
        raise reader.Refused(refused.number, refused.line) from refused


def as_if_one_line_more(panel, text):
    """A line counted for the length of the sheet: unread after 32,768 bytes."""
    return reader.UNREAD if history.length_before + len(text) + 1 > reader.LONGEST_SHEET else right_settle_line(panel, text)


def with_length_noted(sheet, texts):
    history.length_before = len(sheet)
    with mock.patch.object(history, "settle_line", as_if_one_line_more):
        return right_with_lines(sheet, texts)


def last_edit_alone(sheet, past, text):
    """The panel of the sheet and the new edit alone, as after a recall to 0."""
    return right_settled(sheet, [text])


def settled_without_the_last(sheet, texts):
    return right_settled(sheet, texts[:-1])


def forged_lines_taken(sheet, past, text):
    """Lines that no edit wrote told by their own refusal."""
    return right_settled(sheet, past + [text])


def any_numbers(lines, count):
    """Lines taken whatever number stands before them."""
    texts, place = [], 0
    for _ in range(count):
        end = lines.find(b"\n", place)
        if end < 0:
            raise reader.Refused(reader.NO_STEP, 0)
        texts.append(bytes(lines[place:end]).partition(b"\t")[2])
        place = end + 1
    return texts, place


def no_step_before_short(self, step):
    if self.is_above(step):
        raise reader.Refused(reader.NO_STEP, 0)
    right_recall(self, step)


def later_steps_dropped_by_a_recall(self, step):
    right_recall(self, step)
    self.last = step


def axis_before_the_name(self, letter, line, name):
    if letter not in model.LETTERS:
        raise reader.Refused(reader.COUNT, 0)
    right_edit_name(self, letter, line, name)


right_edit_name = history.Session.edit_name
SHEET_WORDS = history.SHEET_WORDS

FOUND_BY_HISTORIES = {
    "a recall of one edit more": (history.Session, "recalled_count", lambda self, step: min(step + 1, self.last)),
    "a recall of one edit less": (history.Session, "recalled_count", lambda self, step: max(step - 1, 0)),
    "the last step above the last": (history.Session, "is_above", lambda self, step: step >= self.last > 0),
    "a step above the last recalled": (history.Session, "is_above", lambda self, step: step > self.last + 1),
    "17 before 10": (history.Session, "recall", no_step_before_short),
    "later steps dropped by a recall": (history.Session, "recall", later_steps_dropped_by_a_recall),
    "later steps dropped by a refused edit": (history.Session, "after_refusal", steps_dropped_by_a_refusal),
    "the bytes cleared by a recall": (history.Session, "after_recall", bytes_cleared_by_a_recall),
    "the bytes of dropped lines not given back": (history.Session, "free_bytes", bytes_after_the_last_line),
    "the line feed left out of a line's bytes": (history.Session, "check_line", line_feed_left_out),
    "one byte kept free": (history.Session, "check_line", one_byte_kept_free),
    "16 before other refusals": (history.Session, "edit", room_looked_at_first),
    "10 before other refusals": (history.Session, "edit", stores_looked_at_first),
    "short stores not looked at": (history.Session, "check_stores", room_before_stores),
    "a step numbered after the last one": (history.Session, "next_number", numbered_after_the_last),
    "steps numbered from 0": (history, "history_line", numbered_from_0),
    "an area that is late": (history, "reopen", lambda panel: None),
    "an area before the others": (history, "settle_line", area_before_the_others),
    "an edit refused for the sheet's length": (history, "with_lines", with_length_noted),
    "names not written out anew": (history, "settled", with_state_before(names_of_the_sheet)),
    "the explicit counts of the sheet": (history, "settled", with_state_before(counts_of_the_sheet("cr"))),
    "the rows' explicit count forgotten": (history, "settled", with_state_before(counts_of_the_sheet("r"))),
    "direct entries lost with a track": (history, "calls_in", entries_dropped_by_a_track),
    "direct entries before the sheet's": (history, "enter_all", entries_before_the_names),
    "direct entries not counted beside a track's": (history, "enter_all", entries_not_counted),
    "a refused entry passed over": (history, "enter_all", faults_of_entries_alone),
    "the sheet not counted anew": (history, "after_the_lines", sheet_not_counted_anew),
    "an edit refused at a line": (history, "settled", last_line_told),
    "12 without its pair": (history, "settled", pair_not_told),
    "a `name` line taken as an edit": (history, "SHEET_WORDS", SHEET_WORDS + (b"name",)),
    "a `cell` line taken as an edit": (history, "SHEET_WORDS", SHEET_WORDS + (b"cell",)),
    "a `row` line taken as an edit": (history, "SHEET_WORDS", SHEET_WORDS + (b"row",)),
    "an `item` line taken as an edit": (history, "SHEET_WORDS", SHEET_WORDS + (b"item",)),
    "placements left out of the edits": (history, "SHEET_WORDS", (b"area", b"track")),
    "the edits before the last one forgotten": (history, "settled_with", last_edit_alone),
    "an edit that changes nothing": (history, "settled", settled_without_the_last),
    "lines of no edit told by their refusal": (history, "settled_with", forged_lines_taken),
    "lines taken by any number": (history, "texts_in", any_numbers),
    "no axis before a bad name": (history.Session, "edit_name", axis_before_the_name),
}


@contextlib.contextmanager
def put_in_place(reading):
    where, name, function = reading
    with mock.patch.object(where, name, function):
        yield
