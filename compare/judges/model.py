"""The second judge: a sheet and direct entry calls, answered from the words of documents 01 and 02 alone."""
import copy
from functools import cached_property

import cursor
import placing
import reader
import rules

LETTERS = ("c", "r")
STORE_BYTES = 32768
ENTERED_LINES = (1, 20000)
FULL_STORES = (STORE_BYTES, STORE_BYTES)


class State:
    """An accepted sheet with what entry calls have added."""

    def __init__(self, panel):
        self.panel = panel
        self.explicit = {letter: rules.explicit_count(panel, letter) for letter in LETTERS}
        self.entries = {letter: rules.written_entries(panel.axes[letter]) for letter in LETTERS}
        self.used = {letter: panel.axes[letter].name_bytes for letter in LETTERS}
        self.accepted = []
        # Of a panel that is only displayed; no two areas of another share a cell.
        self.pair = reader.first_pair(list(panel.areas.values())) if panel.display else reader.NO_PAIR

    @cached_property
    def records(self):
        """The records of each axis, which no entry changes."""
        return {letter: rules.records(self.panel.axes[letter], self.explicit[letter]) for letter in LETTERS}

    @cached_property
    def cursors(self):
        return {}

    def cursor(self, letter):
        """The lines of an axis for the cursor, which no entry changes."""
        if letter not in self.cursors:
            self.cursors[letter] = cursor.Axis(self, letter)
        return self.cursors[letter]

    def halves(self):
        """The cells' placements: for each cell, in sheet order, its column and its row."""
        halves = [placement for placement in self.panel.placements if placement.cell]
        return list(zip(halves[::2], halves[1::2]))

    def settled_cells(self):
        """The settled ends of each cell's column and row, before any placing."""
        columns, rows = (self.names(letter) for letter in LETTERS)
        return [(columns.resolve(column), rows.resolve(row)) for column, row in self.halves()]

    def lands(self, packing):
        """Where each cell lands, in sheet order; raises `placing.Unplaced`."""
        return placing.lands(self.items(), self.explicit["c"], packing)

    def items(self):
        """The cells with their sides."""
        sides = [(placing.side(column, self.explicit["c"]), placing.side(row, self.explicit["r"])) for column, row in self.settled_cells()]
        return [placing.Item(line, *both) for line, both in zip(self.panel.cells, sides)]

    def names(self, letter):
        return rules.Names(self.entries[letter], self.panel.areas, letter, self.explicit[letter])

    def copied(self):
        """A copy to enter names in; what no entry changes is shared."""
        other = copy.copy(self)
        other.entries = {letter: list(entries) for letter, entries in self.entries.items()}
        other.used, other.accepted = dict(self.used), list(self.accepted)
        return other


def late_refusal(panel):
    """The number of what is wrong with the sheet as a whole, 0 where nothing is."""
    if any(rules.explicit_count(panel, letter) > rules.FURTHEST for letter in LETTERS):
        return reader.COUNT
    if any(rules.entry_count(panel.axes[letter]) > reader.MOST["entry"] for letter in LETTERS):
        return reader.CROWDED
    return 0


def read_sheet(sheet, stores=FULL_STORES, display=False):
    """The state of an accepted sheet, of the display call where it is asked for; raises `Refused`."""
    panel, line_after = reader.read_lines(sheet, display)
    number = late_refusal(panel)
    if number:
        refused = reader.Refused(number, line_after)
        refused.panel = panel
        raise refused
    if min(stores) < STORE_BYTES:
        raise reader.Refused(reader.SHORT, 0)
    return State(panel)


def enter(state, letter, line, name, stores=FULL_STORES):
    """One direct entry call on bytes: its number, 0 where it is accepted."""
    if not reader.good_name(name):
        return reader.NAME
    if not ENTERED_LINES[0] <= line <= ENTERED_LINES[1]:
        return reader.COUNT
    crowded = (len(state.entries[letter]) >= reader.MOST["entry"]
               or state.used[letter] + len(name) > STORE_BYTES)
    if crowded:
        return reader.CROWDED
    if min(stores) < STORE_BYTES:
        return reader.SHORT
    text = name.decode("ascii")
    state.entries[letter].append((line, text))
    state.used[letter] += len(name)
    state.accepted.append((letter, line, text))
    return 0


def try_name(state, letter, line, name, packing, stores=FULL_STORES):
    """One trial: its number, and where that is 0 all settled placements as lines, and where each cell lands; raises `placing.Unplaced`."""
    entered = state.copied()
    number = enter(entered, letter, line, name, stores)
    return (number, [], []) if number else (0, all_settled_lines(entered), entered.lands(packing))


def refusal_line(number, line):
    return f"refused\t{number}\t{line}"


def entry_line(number):
    return refusal_line(number, 0) if number else "entered\t0\t0"


def output_lines(state):
    """Document 01's output, and the cells after it, placed sparsely; where one has no place, that refusal alone."""
    try:
        return sheet_lines(state) + cell_lines(state)
    except placing.Unplaced as unplaced:
        return [refusal_line(reader.UNPLACED, unplaced.line)]


def cell_lines(state):
    """`cell`, its two column lines and its two row lines, in sheet order."""
    return land_lines(state.lands(placing.SPARSE))


def land_lines(lands):
    return [f"cell\t{area.column}\t{area.column_end}\t{area.row}\t{area.row_end}" for area in lands]


def sheet_lines(state, placements=None):
    """Document 01's output; of the placements of `place` lines, or of others."""
    lines = []
    for letter in LETTERS:
        axis = state.panel.axes[letter]
        lines.append(f"size\t{letter}\t{rules.repetitions(axis)}\t{state.explicit[letter]}")
        lines += state.records[letter]
    return lines + placement_lines(state, placements)


def settled_lines(state):
    """The settled ends of the cells and their marks, two lines for each, in the form of `place` lines."""
    names = {letter: state.names(letter) for letter in LETTERS}
    halves = [half for halves in state.halves() for half in halves]
    marks = ["\t".join("y" if mark else "n" for mark in names[half.axis].marks(half)) for half in halves]
    return [f"{line}\t{mark}" for line, mark in zip(placement_lines(state, halves), marks)]


def all_settled_lines(state):
    """The settled ends of all placements and their marks, in sheet order: `place`, or `settled` for the columns and the rows of a cell."""
    names = {letter: state.names(letter) for letter in LETTERS}
    lines = []
    for placement in state.panel.placements:
        ends = [str(part) for end in names[placement.axis].resolve(placement) for part in end]
        marks = ["y" if mark else "n" for mark in names[placement.axis].marks(placement)]
        lines.append("\t".join(["settled" if placement.cell else "place", placement.axis, *ends, *marks]))
    return lines


def written_placements(state):
    """Those of `place` lines."""
    return [placement for placement in state.panel.placements if not placement.cell]


def placement_lines(state, placements=None):
    names = {letter: state.names(letter) for letter in LETTERS}
    lines = []
    for placement in written_placements(state) if placements is None else placements:
        (start, first), (end, last) = names[placement.axis].resolve(placement)
        lines.append(f"place\t{placement.axis}\t{start}\t{first}\t{end}\t{last}")
    return lines


def name_lines(state):
    """The line-name lists, in the form that README.md gives."""
    lines = []
    for letter in LETTERS:
        lists = rules.line_names(state.entries[letter], state.explicit[letter])
        lines += ["\t".join(["names", letter, str(place), *names]) for place, names in enumerate(lists, start=1)]
    return lines


def mark_lines(state):
    """For each placement whether its start and its end were held, in the form that README.md gives."""
    names = {letter: state.names(letter) for letter in LETTERS}
    marks = [(placement.axis, names[placement.axis].marks(placement)) for placement in written_placements(state)]
    return ["\t".join(["held", letter, *("y" if mark else "n" for mark in both)]) for letter, both in marks]


def cut_lines(lines):
    """The lines without records and without empty name lists."""
    return [line for line in lines if not line[0].isdigit() and not (line.startswith("names") and line.count("\t") == 2)]


def count_lines(state):
    """The number of name entries of each axis."""
    return [f"entries\t{letter}\t{len(state.entries[letter])}" for letter in LETTERS]


def displayed(sheet, answer):
    """What the display call answers, beside the sheet call's answer: it refuses no areas that share a cell and takes no entries,
    and is else the same."""
    overlap = answer.refused and answer.refused.number == reader.OVERLAP
    return Answer(sheet, display=True) if overlap or answer.calls else answer


class Answer:
    """What the model says of a sheet and entry calls, each (axis, line, name as bytes), or of a sheet that is only displayed."""

    def __init__(self, sheet, calls=(), display=False, stores=FULL_STORES):
        self.refused = None
        self.state = None
        self.numbers = []
        self.calls = calls
        try:
            self.state = read_sheet(sheet, stores, display)
        except reader.Refused as refused:
            self.refused = refused
            return
        self.numbers = [enter(self.state, *call) for call in calls]

    @cached_property
    def output(self):
        """Document 01's output after the entry calls."""
        if self.refused:
            return [refusal_line(self.refused.number, self.refused.line)]
        return output_lines(self.state)

    @cached_property
    def unplaced(self):
        """Whether the panel is accepted, and one of its cells has no place."""
        return not self.refused and self.output[0].startswith("refused")

    @cached_property
    def names(self):
        """The line names after the entry calls."""
        return [] if self.refused else name_lines(self.state)

    @cached_property
    def marks(self):
        """The marks of the placements after the entry calls."""
        return [] if self.refused else mark_lines(self.state)

    @cached_property
    def pair(self):
        """The line of the pair of areas that share a cell, in the form that README.md gives; none where it is zeros."""
        earlier, later = self.refused.pair if self.refused else self.state.pair
        return [f"pair\t{earlier}\t{later}"] if (earlier, later) != reader.NO_PAIR else []

    def full_answer(self, names=True):
        """The answers of the calls, document 01's output and, where asked, the line names, the marks and the pair; nothing beside the refusal
        where a cell has no place."""
        beside = self.names + self.marks + self.pair if names and not self.unplaced else []
        return [entry_line(number) for number in self.numbers] + self.output + beside


def text_of(lines):
    return "".join(line + "\n" for line in lines)
