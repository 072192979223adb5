"""Holds the judges against each other on one sheet with its entry calls."""
import re
from dataclasses import replace

import css
import css_cells
import exact_cursor
import model
import placing
import questions
import reader
import resize
import rules
from batch import Batch, Ended
from build import CannotCompare

# Above this the Rust isn't asked for the entries of a sheet that the model refuses as crowded.
MOST_ENTRIES_ASKED = 100000
# Above this the Rust isn't asked what a trial would give.
MOST_TRACKS_TRIED = 300


TEMPLATE_WORDS = (b"name", b"track", b"repeat", b"end")


def invalid_letters(panel):
    """The axes whose template is invalid in CSS's words."""
    return [letter for letter in model.LETTERS if not css.template_is_valid(panel.axes[letter])]


def without_templates(sheet, letters):
    """The sheet without the template lines of these axes."""
    dropped = {(word, letter.encode()) for word in TEMPLATE_WORDS for letter in letters}
    return b"\n".join(line for line in sheet.split(b"\n") if tuple(line.split(b"\t")[:2]) not in dropped)


def as_placements(line):
    """A `cell` line as the two placements whose settled fields are the cell's; another line as it is."""
    fields = line.split(b"\t")
    if fields[0] != b"cell":
        return [line]
    return [b"\t".join([b"place", b"c", *fields[1:7]]), b"\t".join([b"place", b"r", *fields[7:]])]


def asked_of_the_rust(sheet, panel):
    """The Rust half uses an invalid template: it is asked without the template lines of such an axis. It has no cells to place here: it
    is asked their settled fields, as those of placements."""
    lines = without_templates(sheet, invalid_letters(panel)).split(b"\n")
    return b"\n".join(other for line in lines for other in as_placements(line))


class Rust(Batch):
    """The harness as a running process."""

    def ask(self, sheet, entries, word=b"sheet"):
        """The answer as lines; the entries are those that the table accepts.

        Its repetitions are by raised sizes, as document 02 has them; asked by the word `crate`, by its own."""
        self.send(sheet, [(letter, line, name.encode()) for letter, line, name in entries], word)
        return self.answered()

    def lines(self, explicit):
        """Every grid line as an origin-zero line, and every origin-zero line back, as lines of text."""
        self.process.stdin.write(b"lines %d\n" % explicit)
        return self.answered()

    def answered(self):
        try:
            return self.read_answer()
        except Ended as ended:
            raise CannotCompare("no comparison: the harness ended") from ended


def first_difference(name, left, right):
    """One line that says where two lists of lines part, None where they don't."""
    if left == right:
        return None
    for place in range(max(len(left), len(right))):
        here = [lines[place] if place < len(lines) else "(nothing)" for lines in (left, right)]
        if here[0] != here[1]:
            return f"{name}: model {here[0]!r}, other {here[1]!r}"
    return None


def compare_lines(rust, explicit):
    """Layer 1's conversions of every line; line 0, on which the Rust panics, is refused here."""
    own = [f"to\t{line}\t{rules.origin_zero_line(line, explicit) if line else 'panic'}" for line in range(-32768, 32768)]
    own += [f"back\t{line}\t{rules.grid_line(line, explicit)}" for line in range(-10000, 10001)]
    return first_difference(f"Rust: lines with {explicit} tracks", own, rust.lines(explicit))


class Comparison:
    """The result for one sheet: `kind` says which judges spoke, `differences` what they disagree in,
    `numbers` what the entry calls were answered by."""

    def __init__(self, kind, differences):
        self.kind = kind
        self.numbers = []
        self.differences = [difference for difference in differences if difference]


def over_count_difference(panel, lines):
    """The explained difference of a template above 10,000 tracks, tested in full: the Rust cuts the
    count at 10,000 where the model refuses, and writes the same repetitions."""
    expected = []
    for letter in model.LETTERS:
        explicit = min(rules.explicit_count(panel, letter), rules.FURTHEST)
        expected.append(f"size\t{letter}\t{rules.repetitions(panel.axes[letter])}\t{explicit}")
    return first_difference("cut count", expected, [line for line in lines if line.startswith("size")])


def drawn_up_to(sheet, line):
    """The areas of the lines up to this one, from the sheet's text."""
    lines = [text.split(b"\t") for text in sheet.split(b"\n")[:line]]
    return [tuple(map(int, fields[2:])) for fields in lines if fields[0] == b"area"]


def css_overlap(sheet, refused):
    """The pair of a refusal by 12 against CSS's cells; the areas before its line share none."""
    drawn = drawn_up_to(sheet, refused.line)
    first = css.first_pair(drawn)
    if first == refused.pair and first[1] == len(drawn):
        return None
    return f"CSS: cells in common of {first}, model {refused.pair}"


def css_pair(state):
    """No two areas of a panel share a cell; of those of one that is only displayed, the pair is the first that do."""
    drawn = [(area.row_start, area.row_end, area.column_start, area.column_end) for area in state.panel.areas.values()]
    first = css.first_pair(drawn)
    if first == state.pair and (state.panel.display or first == reader.NO_PAIR):
        return None
    return f"CSS: cells in common of {first}, accepted with {state.pair}"


def picture_up_to(sheet, line):
    """The rows of the lines up to this one, from the sheet's text, and which of the lines they are."""
    lines = [text.decode("latin-1").split("\t") for text in sheet.split(b"\n")[:line]]
    return [fields[1:] for fields in lines if fields[0] == "row"], [place for place, fields in enumerate(lines, start=1) if fields[0] == "row"]


def css_picture(state, sheet):
    """The areas of an accepted picture against CSS's, in order of first cell."""
    rows, _ = picture_up_to(sheet, len(sheet))
    if not rows:
        return None
    drawn = {name: (area.row_start, area.row_end, area.column_start, area.column_end) for name, area in state.panel.areas.items()}
    own = css.picture_areas(rows) if len(set(map(len, rows))) == 1 else None
    if own is None or list(own.items()) != list(drawn.items()):
        return f"CSS: the picture has areas {own}, the rule {drawn}"
    if any(state.explicit[letter] < css.area_tracks(state.panel, letter) for letter in model.LETTERS):
        return "CSS: the explicit grid is smaller than the picture"
    return None


def css_broken(sheet, refused):
    """A refusal by 13 or 14 against CSS's words: the widths of the rows up to its line, or a name whose cells form no filled rectangle."""
    rows, places = picture_up_to(sheet, refused.line)
    widths = list(map(len, rows))
    if refused.number == reader.UNEQUAL:
        right = len(set(widths[:-1])) == 1 and widths[-1] != widths[0]
    else:
        right = len(set(widths)) == 1 and css.picture_areas(rows) is None
    right = right and places[-1] == refused.line
    return None if right else f"CSS: no refusal by {refused.number} at line {refused.line}"


def compare_overlap(refused, rust, sheet):
    """Areas that share a cell: the Rust takes them, and is compared with what the display call answers."""
    displayed = model.Answer(sheet, display=True)
    result = compare_refused(displayed.refused, rust, sheet) if displayed.refused else compare_accepted(displayed, rust, sheet)
    difference = css_overlap(sheet, refused)
    return Comparison(f"refused 12, displayed: {result.kind}", result.differences + [difference])


def compare_refused(refused, rust, sheet):
    """Where the model refuses, the Rust speaks only of areas that share a cell and of what is found after the last line."""
    if refused.number == reader.OVERLAP:
        return compare_overlap(refused, rust, sheet)
    if refused.number in (reader.UNEQUAL, reader.BROKEN):
        return Comparison(f"refused {refused.number}", [css_broken(sheet, refused)])
    panel = getattr(refused, "panel", None)
    if panel is None:
        return Comparison(f"refused {refused.number}", [])
    counts = [rules.entry_count(panel.axes[letter]) for letter in model.LETTERS]
    if max(counts) > MOST_ENTRIES_ASKED:
        return Comparison(f"refused {refused.number} after the last line, entries too many to ask", [])
    lines = rust.ask(asked_of_the_rust(sheet, panel), [])
    entries = [f"entries\t{letter}\t{count}" for letter, count in zip(model.LETTERS, counts)]
    differences = [first_difference("entry count", entries, lines[-2:])]
    if refused.number == reader.COUNT:
        differences.append(over_count_difference(panel, lines))
        return Comparison("explained: explicit count above 10,000", differences)
    return Comparison("refused 8 after the last line, entries counted alike", differences)


def css_placements(state, letter, lines, placements):
    """The rule's lines against CSS's, for placements whose names lie on explicit lines."""
    names = state.names(letter)
    for placement in placements:
        settled = names.resolve(placement)
        for (kind, number), position in zip(settled, lines.resolve(placement)):
            if position is not None and (kind, number) != ("line", lines.number_of(position)):
                return f"CSS: {placement}: rule {kind} {number}, CSS {lines.number_of(position)}"
    return None


def css_any_placement(state, letter):
    """Over the entries held, wherever a placement's own names are explicit and it writes no line 0."""
    lines = css.Lines([(line, name) for line, name in state.entries[letter]], state.panel.areas, letter,
                      state.explicit[letter])
    fit = [placement for placement in state.panel.placements
           if placement.axis == letter and not css.writes_line_zero(placement)
           and all(lines.are_explicit(name) for name in css.names_used(placement))]
    return css_placements(state, letter, lines, fit)


def demand_lines(state):
    """The lines of both axes over the name book where the third demand's conditions hold but that a template may be invalid, else None."""
    lines = {}
    for letter in model.LETTERS:
        axis = state.panel.axes[letter]
        repetitions = rules.repetitions(axis)
        if not css.writes_in_bounds(axis, repetitions):
            return None
        entered = [(line, name) for of, line, name in state.accepted if of == letter]
        book = css.book(axis, repetitions, entered)
        if any(line > state.explicit[letter] + 1 for line, _ in book):
            return None
        lines[letter] = css.Lines(book, state.panel.areas, letter, state.explicit[letter])
    if any(css.writes_line_zero(placement) for placement in state.panel.placements):
        return None
    return lines


def css_records(state, letter, records):
    """Record 2(m + j) - 1 is track j, open and as written, or collapsed where `fit` wrote it empty."""
    axis = state.panel.axes[letter]
    for j, (track, fit) in enumerate(css.template_tracks(axis, rules.repetitions(axis)), start=1):
        index = 2 * (axis.negative + j) - 1
        empty = fit and axis.negative + j - 1 not in axis.items
        if rules.bare(records[index]) != rules.record(index, "track", empty, track):
            return f"CSS: record {index} of {letter}: {records[index]!r}"
    return None


def css_invalid(state, letter):
    """An invalid template gives nothing: no repetition, no track and no name, and areas still count, their tracks by the implicit sizes."""
    axis = state.panel.axes[letter]
    if css.template_is_valid(axis):
        return None
    spanned = css.area_tracks(state.panel, letter)
    entered = [(line, name) for of, line, name in state.accepted if of == letter]
    if (rules.repetitions(axis), state.explicit[letter], state.entries[letter]) != (0, spanned, entered):
        return f"CSS: the invalid template of {letter} counts"
    for place in range(spanned + axis.positive):
        index = 2 * (axis.negative + place) + 1
        if rules.bare(state.records[letter][index]) != rules.record(index, "track", False, css.implicit_size(axis, place) or rules.AUTO_TRACK):
            return f"CSS: record {index} of {letter}, beside an invalid template: {state.records[letter][index]!r}"
    return None


def css_sources(state, letter, records):
    """The source of each record by CSS's account of explicit and implicit tracks."""
    axis = state.panel.axes[letter]
    sources = css.Sources(axis, rules.repetitions(axis), state.explicit[letter])
    for index, record in enumerate(records):
        if record.rpartition("\t")[2] != sources.of_record(index):
            return f"CSS: source of record {index} of {letter}: {record!r}"
    return None


def css_resize(axis):
    """The least resize in whole numbers: the count at its size differs, and no closer one's does, of the nearest 200."""
    if not resize.is_asked(axis) or css.whole_repetitions(axis) is None or not resize.is_near(axis):
        return None
    size = resize.least_resize(axis)[1]
    counted = lambda inner: css.whole_repetitions(replace(axis, inner=float(inner)))
    now, near = int(axis.inner), abs(size - int(axis.inner))
    closer = [other for other in range(now - near, now + near + 1) if other in range(65536) and (abs(other - now) < near or other > size)]
    if counted(size) == counted(now) or any(counted(other) not in (None, counted(now)) for other in closer[-200:]):
        return f"CSS: the least resize from {now} to {size}"
    return None


def css_repetitions(axis):
    """The rule's repetitions against whole-number arithmetic."""
    if axis.inner is None or not css.template_is_valid(axis) or not any(c.automatic() for c in axis.components):
        return None
    number = css.whole_repetitions(axis)
    if number is not None and number != rules.repetitions(axis):
        return f"CSS: repetitions {rules.repetitions(axis)}, in whole numbers {number}"
    return None


def css_cells_of(state, packing):
    """Where the cells land against a search over all rectangles on a map of cells, where the grid is small; and no automatic one shares
    a cell with another, where it is not."""
    try:
        areas = [(area.column, area.column_end, area.row, area.row_end) for area in state.lands(packing)]
        own = "at", areas
    except placing.Unplaced as unplaced:
        own = "refused", state.panel.cells.index(unplaced.line)
    settled = state.settled_cells()
    found = css_cells.placed(settled, state.explicit["c"], state.explicit, packing == placing.DENSE)
    if found is not None and found != own:
        return f"CSS: cells placed {packing}: {found}, model {own}"
    automatic = [any(css_cells.extent(ends, state.explicit[letter])[0] == "over" for letter, ends in zip("cr", both)) for both in settled]
    if own[0] == "at" and not css_cells.apart(own[1], automatic):
        return f"CSS: cells placed {packing} share a cell: {own[1]}"
    return None


def css_differences(state):
    """Every comparison with CSS's counting that applies, and whether the third demand's does."""
    differences = [css_repetitions(state.panel.axes[letter]) for letter in model.LETTERS]
    differences += [css_resize(state.panel.axes[letter]) for letter in model.LETTERS]
    differences += [css_any_placement(state, letter) for letter in model.LETTERS]
    differences += [css_invalid(state, letter) for letter in model.LETTERS]
    differences += [None if css.gutters_fall_into_one(state.records[letter]) else f"CSS: gutters of {letter}"
                    for letter in model.LETTERS]
    differences += [css_sources(state, letter, state.records[letter]) for letter in model.LETTERS]
    differences.append(css_pair(state))
    if state.panel.cells:
        differences += [css_cells_of(state, packing) for packing in (placing.SPARSE, placing.DENSE)]
    demand = demand_lines(state)
    if demand is None:
        return differences, False
    for letter in model.LETTERS:
        placements = [placement for placement in state.panel.placements if placement.axis == letter]
        differences.append(css_placements(state, letter, demand[letter], placements))
        differences.append(css_records(state, letter, state.records[letter]))
    return differences, True


def compare(sheet, calls, rust, judged=(), expected=None):
    """Hold the judges against each other, and what is judged against the model.

    `expected` is the (number, line) that a damage was made for."""
    answer = model.Answer(sheet, calls)
    if answer.refused:
        result = compare_refused(answer.refused, rust, sheet)
    else:
        result = compare_accepted(answer, rust, sheet)
    result.numbers = answer.numbers
    if expected:
        found = (answer.refused.number, answer.refused.line) if answer.refused else (0, 0)
        if found != expected:
            result.differences.append(f"damage: model {found}, made for {expected}")
    rows = questions.asked(sheet, answer) if judged else []
    for one in judged:
        difference = first_difference(one.name, one.expected(sheet, answer, rows), one.ask(sheet, calls, rows))
        result.differences += [difference] if difference else []
    return result


def held_of(state):
    """All that an entry changes."""
    return [list(part) for part in (*state.entries.values(), state.used.items(), state.accepted)]


def entered_lines(sheet, calls, row):
    """What a trial has to answer, from the answers of the sheet with one call more; and that state."""
    call, packing, stores = questions.call_of(row)
    after = model.Answer(sheet, [*calls, call])
    number = after.numbers[-1] or (reader.SHORT if min(stores) < model.STORE_BYTES else 0)
    found = questions.answer_text(after.state, questions.cells(packing)).split("\t")
    if number or found[0] == "refused":
        return [model.refusal_line(number, 0) if number else "\t".join(found)], None
    settled = iter(model.settled_lines(after.state))
    placed = (f"{line}\t{held[7:]}" for line, held in zip(model.placement_lines(after.state), after.marks))
    lines = ["settled" + next(settled)[5:] if placement.cell else next(placed) for placement in after.state.panel.placements]
    lands = ["\t".join(["cell", *found[at:at + 4]]) for at in range(1, len(found), 4)]
    return [f"tried\t{len(lines)}\t{len(lands)}", *lines, *lands], after.state


def rust_placements(sheet, state, rust):
    """The settled placements, cells' too, of a small grid by the Rust, which has no marks."""
    if max(state.explicit.values()) > MOST_TRACKS_TRIED:
        return None
    lines = rust.ask(asked_of_the_rust(sheet, state.panel), state.accepted)
    return [line[5:] for line in lines if line.startswith("place")]


def trial_difference(answer, rust, sheet, row):
    """A trial beside the entry of the same name after the calls, and the Rust's placements then; the panel itself stays."""
    before = held_of(answer.state)
    own = questions.answer_text(answer.state, row).split("\n")
    if held_of(answer.state) != before:
        return f"trial: {row!r} changes the panel"
    lines, state = entered_lines(sheet, answer.calls, row)
    if own != lines:
        return first_difference(f"trial {row!r}", own, lines)
    theirs = state and rust_placements(sheet, state, rust)
    placed = [line[line.index("\t"):-4] for line in own if line.startswith(("place", "settled"))]
    return first_difference(f"Rust: trial {row!r}", placed, theirs) if theirs is not None else None


def recounted(sheet, calls, counts):
    """The numbers of entry calls, counted anew from the sheet's text and the Rust's entry counts."""
    used = {letter: sum(len(line.split(b"\t")[2]) for line in sheet.split(b"\n") if line.startswith(start))
            for letter, start in (("c", b"name\tc"), ("r", b"name\tr"))}
    numbers = []
    for letter, line, name in calls:
        if re.fullmatch(rb"[!-~]{1,32}", name) is None:
            numbers.append(2)
        elif line < 1 or line > 20000:
            numbers.append(4)
        elif counts[letter] == 4096 or used[letter] + len(name) > 32768:
            numbers.append(8)
        else:
            numbers.append(0)
            used[letter] += len(name)
            counts[letter] += 1
    return numbers


def calls_difference(answer, sheet, lines):
    """The model's numbers of the calls against the recount."""
    if not answer.calls:
        return None
    accepted = [letter for letter, _, _ in answer.state.accepted]
    counts = {line.split("\t")[1]: int(line.split("\t")[2]) for line in lines[-2:]}
    before = {letter: counts[letter] - accepted.count(letter) for letter in counts}
    again = recounted(sheet, answer.calls, before)
    return first_difference("calls", list(map(str, answer.numbers)), list(map(str, again)))


def compare_accepted(answer, rust, sheet):
    state = answer.state
    # The Rust has neither sources nor marks, and of cells their settled fields alone.
    full = list(map(rules.bare, model.sheet_lines(state, state.panel.placements))) + answer.names + model.count_lines(state)
    lines = rust.ask(asked_of_the_rust(sheet, state.panel), state.accepted)
    differences = [first_difference("Rust", full, lines)]
    if not differences[0]:
        differences.append(calls_difference(answer, sheet, lines))
    rows = questions.made(sheet, state)
    differences.append(exact_cursor.difference(state, model.sheet_lines(state), rows, questions.answer_texts(state, rows)))
    differences += [trial_difference(answer, rust, sheet, row) for row in questions.trials(sheet, state)]
    differences.append(css_picture(state, sheet))
    css_found, demanded = css_differences(state)
    cells = "" if not state.panel.cells else ", cells that have no place" if answer.unplaced else ", cells"
    kind = "accepted" + cells + (", a picture" if state.panel.picture else "") + (", an invalid template" if invalid_letters(state.panel) else "") + (", third demand's conditions hold" if demanded else "")
    return Comparison(kind, differences + css_found)


def without_rows(sheet, calls):
    """The sheet without row names and row template, the calls without row entries."""
    dropped = (b"name\tr", b"track\tr", b"repeat\tr", b"end\tr")
    lines = [line for line in sheet.split(b"\n") if not line.startswith(dropped)]
    return b"\n".join(lines), [call for call in calls if call[0] == "c"]


def column_answers(answer):
    """Every answer of a sheet and its calls that is about columns."""
    own = model.sheet_lines(answer.state)
    rows = next(place for place, line in enumerate(own) if line.startswith("size\tr"))
    numbers = [number for call, number in zip(answer.calls, answer.numbers) if call[0] == "c"]
    # Where a cell lands is no column answer; its settled fields are.
    named = own[rows:] + model.settled_lines(answer.state) + answer.names + answer.marks
    return [f"call {number}" for number in numbers] + own[:rows] + \
        [line for line in named if line.startswith(("place\tc", "names\tc", "held\tc"))]


def columns_alone(sheet, calls):
    """Row names and row template reach no column answer."""
    answer = model.Answer(sheet, calls)
    if answer.refused:
        return None
    other = model.Answer(*without_rows(sheet, calls))
    if other.refused:
        return f"columns alone: refused {other.refused.number} without the rows"
    return first_difference("columns alone", column_answers(answer), column_answers(other))


def any_order(sheet, calls):
    """Under the third demand's conditions the order of entries reaches no placement."""
    answer = model.Answer(sheet, calls)
    if answer.refused or demand_lines(answer.state) is None:
        return None
    entries = [(letter, line, name.encode()) for letter, line, name in answer.state.accepted]
    other = model.Answer(sheet, entries[::-1])
    placed = [model.placement_lines(one.state) + model.settled_lines(one.state) + one.marks for one in (answer, other)]
    return first_difference("any order", *placed)
