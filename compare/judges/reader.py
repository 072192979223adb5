"""The panel sheet, read by the words of document 01 as document 02 changes them, with every refusal."""
import re
from dataclasses import dataclass, field

import binary32

LONGEST_SHEET = 32768
LONGEST_NAME = 32
MOST = {"component": 64, "track": 32, "spare": 64, "area": 64, "placement": 256, "entry": 4096}
LARGEST_LENGTH = 65535.0
LARGEST_PERCENTAGE = 10.0
LINE_INDEXES = (-32768, 32767)
SPANS = (0, 65535)
CELL_SPANS = (1, 32)
EDGES = (1, 10001)
IMPLICIT_COUNTS = (0, 10000)
ITEMS = (0, 29999)
REPEAT_COUNTS = (0, 65535)
MOST_WORDS = 10000

UNREAD, NAME, VALUE, COUNT, AREA, TWICE, LATE, CROWDED, ZERO_LINE, SHORT = range(1, 11)
INDEFINITE = 11
OVERLAP = 12
UNEQUAL = 13
BROKEN = 14
UNPLACED = 15
HISTORY_FULL = 16
NO_STEP = 17
# Which of the faults of a line is given: document 02 puts 12 after 6 and 7 and before 8, and 14 after 13.
FAULT_ORDER = (UNREAD, NAME, VALUE, COUNT, AREA, TWICE, LATE, OVERLAP, CROWDED, UNEQUAL, BROKEN)

LARGEST_OF_KIND = {"len": LARGEST_LENGTH, "pct": LARGEST_PERCENTAGE, "fr": LARGEST_LENGTH,
                   "fitl": LARGEST_LENGTH, "fitp": LARGEST_PERCENTAGE, "auto": 0.0, "min": 0.0, "max": 0.0}
MINIMUM_KINDS = ("len", "pct", "auto", "min", "max")
NO_PAIR = (0, 0)
THE_REST = "the rest"
# The kinds after which a line of a kind is late: "rows stand where area records do; an area record after a row, or a row after an area
# record, is late".
LATE_AFTER = {"axis": {"area", "row", THE_REST}, "area": {"row", THE_REST}, "row": {"area", THE_REST}, THE_REST: set()}


class Refused(Exception):
    """A refusal: number, line and, where areas share a cell, the pair (earlier, later)."""

    def __init__(self, number, line, pair=NO_PAIR):
        super().__init__(number, line)
        self.number = number
        self.line = line
        self.pair = pair


@dataclass
class Size:
    """A kind and the bits of its f32."""
    kind: str
    bits: int

    def value(self):
        return binary32.from_bits(self.bits)


@dataclass
class Track:
    minimum: Size
    maximum: Size


@dataclass
class Component:
    """A single track (count None) or a repeat (a number, `fill` or `fit`) with its name sets."""
    count: object
    tracks: list
    sets: list

    def automatic(self):
        return self.count in ("fill", "fit")


@dataclass
class Axis:
    inner: object = None
    rule: str = "max"
    gap: Size = field(default_factory=lambda: Size("len", 0))
    given: bool = False
    components: list = field(default_factory=list)
    sets: list = field(default_factory=lambda: [[]])
    open: bool = False
    spares: list = field(default_factory=list)
    negative: int = 0
    positive: int = 0
    items: set = field(default_factory=set)
    name_bytes: int = 0


@dataclass
class Area:
    row_start: int
    row_end: int
    column_start: int
    column_end: int

    def edges(self, axis):
        """Start and end on an axis."""
        return (self.column_start, self.column_end) if axis == "c" else (self.row_start, self.row_end)


@dataclass
class End:
    """One end of a placement."""
    kind: str
    name: str
    number: int


@dataclass
class Placement:
    """A placement; a cell is two of them, one after the other: its column, then its row."""
    axis: str
    start: End
    end: End
    cell: bool = False


@dataclass
class Panel:
    axes: dict = field(default_factory=lambda: {"c": Axis(), "r": Axis()})
    areas: dict = field(default_factory=dict)
    placements: list = field(default_factory=list)
    # The sheet's lines of the cells, and the number of the line that is read.
    cells: list = field(default_factory=list)
    line: int = 0
    # The rows of the picture of areas, each a list of words, and the names that stand in it.
    picture: list = field(default_factory=list)
    pictured: set = field(default_factory=set)
    # The kinds of the lines so far.
    kinds: set = field(default_factory=set)
    # Whether it is read for display alone: there areas may share a cell.
    display: bool = False
    # The pair of the area that was refused for sharing a cell.
    pair: tuple = NO_PAIR


class Fields:
    """The fields of one line, read one by one; `faults` gathers what is wrong with them."""

    def __init__(self, fields):
        self.fields = fields
        self.at = 1
        self.faults = set()

    def next(self):
        self.at += 1
        return self.fields[self.at - 1]

    def word(self, words):
        """One of the words, else unread."""
        text = self.next().decode("latin-1")
        if text not in words:
            self.faults.add(UNREAD)
        return text

    def exactly(self, text):
        """An unused field."""
        if self.next() != text:
            self.faults.add(UNREAD)

    def name(self):
        text = self.next()
        if not good_name(text):
            self.faults.add(NAME)
        return text.decode("latin-1")

    def words(self):
        """The words of a row: names, or dots for an empty cell."""
        words = [word.decode("latin-1") for word in self.fields[1:]]
        if any(not is_dots(word) and not good_name(word.encode("latin-1")) for word in words):
            self.faults.add(NAME)
        if len(words) > MOST_WORDS:
            self.faults.add(COUNT)
        return words

    def whole(self, low, high):
        return self.whole_number(self.next(), low, high)

    def whole_number(self, text, low, high):
        if not re.fullmatch(rb"0|-?[1-9][0-9]*", text):
            self.faults.add(UNREAD)
            return 0
        # No range here has a number of more than six characters.
        number = int(text) if len(text) <= 6 else None
        if number is None or not low <= number <= high:
            self.faults.add(COUNT)
            return 0
        return number

    def size(self, kind):
        """Eight lower-case hexadecimal digits, the value within the range of its kind."""
        text = self.next()
        if not re.fullmatch(rb"[0-9a-f]{8}", text):
            self.faults.add(UNREAD)
            return Size(kind, 0)
        bits = int(text, 16)
        if not in_range(bits, LARGEST_OF_KIND.get(kind, LARGEST_LENGTH)):
            self.faults.add(VALUE)
        return Size(kind, bits)

    def sizing(self, kinds):
        return self.size(self.word(kinds))

    def track(self):
        return Track(self.sizing(MINIMUM_KINDS), self.sizing(tuple(LARGEST_OF_KIND)))

    def end(self, spans=SPANS):
        """One end of a placement: kind, name, number; `spans` is the range of plain ones."""
        kind = self.word(("auto", "line", "named", "span", "nspan"))
        name = "-"
        if kind in ("named", "nspan"):
            name = self.name()
        else:
            self.exactly(b"-")
        if kind in ("line", "named"):
            return End(kind, name, self.whole(*LINE_INDEXES))
        if kind in ("span", "nspan"):
            return End(kind, name, self.whole(*(spans if kind == "span" else SPANS)))
        self.exactly(b"0")
        return End(kind, name, 0)


def in_range(bits, largest):
    """Whether bits are those of a value from 0 to the largest; a comparison with a NaN is false, and minus zero has its own bits."""
    return bits != 0x80000000 and 0.0 <= binary32.from_bits(bits) <= largest


def share_a_cell(one, other):
    """Whether some row and some column lie in both areas; a start is in, an end is not."""
    return all(one.edges(letter)[0] < other.edges(letter)[1] and other.edges(letter)[0] < one.edges(letter)[1] for letter in "cr")


def first_sharing(areas, area):
    """The number, from 1 in sheet order, of the first of these areas that shares a cell with one that comes after them; 0 where none does."""
    return next((number for number, earlier in enumerate(areas, start=1) if share_a_cell(earlier, area)), 0)


def first_pair(areas):
    """The first pair (earlier, later) of areas that share a cell: smallest later area, then smallest earlier area; zeros where none do."""
    pairs = ((first_sharing(areas[:number - 1], area), number) for number, area in enumerate(areas, start=1))
    return next((pair for pair in pairs if pair[0]), NO_PAIR)


def is_dots(word):
    """"A run of dots for an empty cell"."""
    return set(word) == {"."}


def names_in(words):
    return {word for word in words if not is_dots(word)}


def is_crowded(names):
    return len(names) > MOST["area"]


def cells_of(picture):
    """The cells, (row, column) from 1, of each name of a picture, the names in order of first cell reading along rows."""
    cells = {}
    for row, words in enumerate(picture, start=1):
        for column, word in enumerate(words, start=1):
            if not is_dots(word):
                cells.setdefault(word, set()).add((row, column))
    return cells


def area_of(cells):
    """The area whose cells are just these, None where they form no filled rectangle."""
    rows = range(min(row for row, _ in cells), max(row for row, _ in cells) + 1)
    columns = range(min(column for _, column in cells), max(column for _, column in cells) + 1)
    if len(cells) != len(rows) * len(columns):
        return None
    return Area(rows.start, rows.stop, columns.start, columns.stop)


def areas_of(picture):
    """The areas of a picture by name, in order of first cell; None where a name's cells form no filled rectangle."""
    areas = {name: area_of(cells) for name, cells in cells_of(picture).items()}
    return None if None in areas.values() else areas


def good_name(text):
    return 1 <= len(text) <= LONGEST_NAME and all(33 <= code <= 126 for code in text)


# Each record: how many fields, and a function that reads the fields, adds the faults and answers
# what to do where there are none.

def read_axis(panel, fields):
    axis = panel.axes.get(fields.word(("c", "r")))
    text = fields.next()
    inner = None
    if text != b"-":
        fields.at -= 1
        inner = fields.size("len").value()
    rule = fields.word(("max", "min"))
    gap = fields.sizing(("len", "pct"))
    if axis and axis.given:
        fields.faults.add(TWICE)

    def do():
        axis.inner, axis.rule, axis.gap, axis.given = inner, rule, gap, True
    return do


def read_area(panel, fields):
    name = fields.name()
    row_start, row_end, column_start, column_end = [fields.whole(*EDGES) for _ in range(4)]
    if row_start >= row_end or column_start >= column_end:
        fields.faults.add(AREA)
    if name in panel.areas:
        fields.faults.add(TWICE)
    if len(panel.areas) >= MOST["area"]:
        fields.faults.add(CROWDED)
    area = Area(row_start, row_end, column_start, column_end)
    earlier = 0 if panel.display else first_sharing(list(panel.areas.values()), area)
    if earlier:
        fields.faults.add(OVERLAP)
        panel.pair = earlier, len(panel.areas) + 1

    def do():
        panel.areas[name] = area
    return do


def is_unequal(picture, words):
    """Whether a row has another width than the first one."""
    return len(picture) > 0 and len(words) != len(picture[0])


def read_row(panel, fields):
    words = fields.words()
    names = panel.pictured | names_in(words)
    if is_crowded(names):
        fields.faults.add(CROWDED)
    if is_unequal(panel.picture, words):
        fields.faults.add(UNEQUAL)

    def do():
        panel.picture.append(words)
        panel.pictured = names
    return do


def read_name(panel, fields):
    axis = panel.axes.get(fields.word(("c", "r")))
    name = fields.name()

    def do():
        sets = axis.components[-1].sets if axis.open else axis.sets
        sets[-1].append(name)
        axis.name_bytes += len(name)
    return do


def read_track(panel, fields):
    axis = panel.axes.get(fields.word(("c", "r")))
    track = fields.track()
    if axis and axis.open:
        if len(axis.components[-1].tracks) >= MOST["track"]:
            fields.faults.add(CROWDED)
    elif axis and len(axis.components) >= MOST["component"]:
        fields.faults.add(CROWDED)

    def do():
        if axis.open:
            axis.components[-1].tracks.append(track)
            axis.components[-1].sets.append([])
        else:
            axis.components.append(Component(None, [track], []))
            axis.sets.append([])
    return do


def read_repeat(panel, fields):
    axis = panel.axes.get(fields.word(("c", "r")))
    text = fields.next()
    count = text.decode("latin-1")
    if count not in ("fill", "fit"):
        count = fields.whole_number(text, *REPEAT_COUNTS)
    if axis and axis.open:
        fields.faults.add(UNREAD)
    if axis and len(axis.components) >= MOST["component"]:
        fields.faults.add(CROWDED)

    def do():
        axis.components.append(Component(count, [], [[]]))
        axis.sets.append([])
        axis.open = True
    return do


def read_end(panel, fields):
    axis = panel.axes.get(fields.word(("c", "r")))
    if axis and not axis.open:
        fields.faults.add(UNREAD)

    def do():
        axis.open = False
    return do


def read_spare(panel, fields):
    axis = panel.axes.get(fields.word(("c", "r")))
    track = fields.track()
    if axis and len(axis.spares) >= MOST["spare"]:
        fields.faults.add(CROWDED)
    return lambda: axis.spares.append(track)


def read_extra(panel, fields):
    axis = panel.axes.get(fields.word(("c", "r")))
    negative = fields.whole(*IMPLICIT_COUNTS)
    positive = fields.whole(*IMPLICIT_COUNTS)

    def do():
        axis.negative, axis.positive = negative, positive
    return do


def read_item(panel, fields):
    axis = panel.axes.get(fields.word(("c", "r")))
    index = fields.whole(*ITEMS)
    return lambda: axis.items.add(index)


def is_full(panel):
    """"Cells count among the 256 placements"."""
    return len(panel.placements) - len(panel.cells) >= MOST["placement"]


def read_place(panel, fields):
    axis = fields.word(("c", "r"))
    start = fields.end()
    end = fields.end()
    if is_full(panel):
        fields.faults.add(CROWDED)
    return lambda: panel.placements.append(Placement(axis, start, end))


def read_cell(panel, fields):
    ends = [fields.end(CELL_SPANS) for _ in range(4)]
    if is_full(panel):
        fields.faults.add(CROWDED)

    def do():
        panel.placements += [Placement("c", *ends[:2], cell=True), Placement("r", *ends[2:], cell=True)]
        panel.cells.append(panel.line)
    return do


RECORDS = {
    "axis": (6, read_axis), "area": (6, read_area), "name": (3, read_name), "track": (6, read_track),
    "repeat": (3, read_repeat), "end": (2, read_end), "spare": (6, read_spare), "extra": (4, read_extra),
    "item": (3, read_item), "place": (8, read_place), "row": (None, read_row), "cell": (13, read_cell),
}


def first_fault(faults):
    return min(faults, key=FAULT_ORDER.index)


def is_of_form(fields):
    """Whether a line has a record's word and its number of fields; a row has any number of words but none."""
    word = fields[0].decode("latin-1")
    return word in RECORDS and (len(fields) >= 2 if word == "row" else len(fields) == RECORDS[word][0])


def kind_of(fields):
    word = fields[0].decode("latin-1")
    return word if word in LATE_AFTER else THE_REST


def read_line(panel, text):
    """Do what the line says and answer 0, or do nothing and answer the first of its faults."""
    fields = Fields(text.split(b"\t"))
    if not is_of_form(fields.fields):
        return UNREAD
    do = RECORDS[fields.fields[0].decode("latin-1")][1](panel, fields)
    kind = kind_of(fields.fields)
    if panel.kinds & LATE_AFTER[kind]:
        fields.faults.add(LATE)
    if fields.faults:
        return first_fault(fields.faults)
    panel.kinds.add(kind)
    do()
    return 0


def last_row(lines):
    """The number of the last row that is not late, of all lines of the form of a row; 0 where there is none."""
    found = 0
    seen = set()
    for number, text in enumerate(lines, start=1):
        fields = text.split(b"\t")
        if is_of_form(fields):
            if kind_of(fields) == "row" and not seen & LATE_AFTER["row"]:
                found = number
            seen.add(kind_of(fields))
    return found


def read_all(sheet, display=False):
    """The panel that the lines say one by one, and the number of the line after the last."""
    if len(sheet) > LONGEST_SHEET:
        raise Refused(UNREAD, 0)
    panel = Panel(display=display)
    lines = sheet.split(b"\n")
    end_of_picture = last_row(lines[:-1])
    for number, text in enumerate(lines[:-1], start=1):
        panel.line = number
        fault = read_line(panel, text)
        if fault:
            raise Refused(fault, number, panel.pair if fault == OVERLAP else NO_PAIR)
        if number == end_of_picture:
            end_picture(panel, number)
    if lines[-1]:
        raise Refused(UNREAD, len(lines))
    return panel, len(lines)


def is_open(panel):
    """Whether a repeat is left open, which is unread at the line after the last."""
    return any(axis.open for axis in panel.axes.values())


def read_lines(sheet, display=False):
    """The same, with no repeat left open."""
    panel, line_after = read_all(sheet, display)
    if is_open(panel):
        raise Refused(UNREAD, line_after)
    return panel, line_after


def end_picture(panel, line):
    """The picture becomes area records; refused by 14 at its last row where a name's cells are no rectangle."""
    areas = areas_of(panel.picture)
    if areas is None:
        raise Refused(BROKEN, line)
    panel.areas.update(areas)
