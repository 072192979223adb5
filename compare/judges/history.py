"""A panel that is edited through a history, and recalled: from the words of document 02 (Req 14) alone.

The sheet is read anew for each act: the history's lines are settled after its own, one by one, each as if it were the last."""
import re

import model
import reader
from reader import Refused

# "the sheet's `area`, `track` or `place` line, or `enter`, axis, line, name"
SHEET_WORDS = (b"area", b"track", b"place")
ENTER = b"enter"
# What a history's bytes hold before any edit; any bytes will do.
UNWRITTEN = 0x5a


# The lines of a history.

def history_line(number, text):
    """"A tabbed line: a step number from 1, then" the edit."""
    return b"%d\t%s\n" % (number, text)


def texts_in(lines, count):
    """The edits of the first lines, and the place after them. A history in which they don't stand was written by no edit: 17."""
    texts, place = [], 0
    for number in range(1, count + 1):
        mark = b"%d\t" % number
        end = lines.find(b"\n", place)
        if not lines.startswith(mark, place) or end < 0:
            raise Refused(reader.NO_STEP, 0)
        texts.append(bytes(lines[place + len(mark):end]))
        place = end + 1
    return texts, place


# One edit.

def whole_number(text):
    """A whole number in decimal digits, None where it is none; no line has as many as ten."""
    return int(text[:10]) if re.fullmatch(rb"0|-?[1-9][0-9]*", text) else None


def call_of(fields):
    """The call that an `enter` line writes, None where it has no such form."""
    if len(fields) != 4 or fields[1] not in (b"c", b"r") or whole_number(fields[2]) is None:
        return None
    return fields[1].decode(), whole_number(fields[2]), fields[3]


def is_entry(text):
    return text.split(b"\t")[0] == ENTER


def is_sheet_line(text):
    """Whether it is the line of an edit; a text in which a line ends is none."""
    return b"\n" not in text and text.split(b"\t")[0] in SHEET_WORDS


def reopen(panel):
    """"An area last of the areas, so 7 isn't given for it"."""
    panel.kinds = set()


def settle_line(panel, text):
    """A sheet's line as if last in the sheet: the number of its fault."""
    if not is_sheet_line(text):
        return reader.UNREAD
    reopen(panel)
    return reader.read_line(panel, text)


def calls_in(texts):
    """The direct entries; one of another form is unread."""
    calls = [call_of(text.split(b"\t")) if b"\n" not in text else None for text in texts if is_entry(text)]
    if None in calls:
        raise Refused(reader.UNREAD, 0)
    return calls


# All edits up to a step.

def with_lines(sheet, texts):
    """The panel of the sheet's lines with those of edits after them, and its direct entries, before what the sheet as a whole says."""
    panel, _ = reader.read_all(sheet)
    calls = calls_in(texts)
    for text in texts:
        fault = 0 if is_entry(text) else settle_line(panel, text)
        if fault:
            raise Refused(fault, 0, panel.pair if fault == reader.OVERLAP else reader.NO_PAIR)
    return panel, calls


def after_the_lines(panel):
    """What is wrong with the sheet as a whole, counted anew with the edits; line 0, as of all calls without a sheet."""
    return reader.UNREAD if reader.is_open(panel) else model.late_refusal(panel)


def written_out(panel):
    """The state with its names written out for the template as it is now, before any direct entry."""
    return model.State(panel)


def enter_all(state, calls):
    """The direct entries one after the other: the number of the first fault."""
    return next(filter(None, (model.enter(state, *call) for call in calls)), 0)


def settled(sheet, texts):
    """The state that these edits alone give after the sheet; raises `Refused`."""
    panel, calls = with_lines(sheet, texts)
    number = after_the_lines(panel)
    if number:
        raise Refused(number, 0)
    state = written_out(panel)
    number = enter_all(state, calls)
    if number:
        raise Refused(number, 0)
    return state


def settled_with(sheet, past, text):
    """The same with one more edit. Lines before it that are refused were written by no edit: 17."""
    reader.read_all(sheet)
    try:
        with_lines(sheet, past)
    except Refused as refused:
        raise Refused(reader.NO_STEP, 0) from refused
    return settled(sheet, past + [text])


class Session:
    """A sheet's panel, its step, the last step, and the bytes of its history."""

    def __init__(self, sheet, size):
        self.sheet = sheet
        self.lines = bytearray([UNWRITTEN] * size)
        self.step = self.last = 0
        self.stores = model.FULL_STORES
        self.state = model.Answer(sheet).state
        self.texts = []

    # What the words leave to one place each.

    def check_stores(self):
        if min(self.stores) < model.STORE_BYTES:
            raise Refused(reader.SHORT, 0)

    def next_number(self):
        """The number of the line of a new edit, which drops the later steps."""
        return self.step + 1

    def free_bytes(self, place):
        """The bytes then free: all after the lines of the present step, "lines dropped give their bytes back, to that new edit too"."""
        return len(self.lines) - place

    def check_line(self, place, line):
        if self.free_bytes(place) < len(line):
            raise Refused(reader.HISTORY_FULL, 0)

    def write(self, place, line):
        self.lines[place:place + len(line)] = line

    def after_refusal(self):
        """"A refused edit drops none"."""

    def after_recall(self):
        """A recall writes no byte of the history."""

    def is_above(self, step):
        return step > self.last

    def recalled_count(self, step):
        return step

    # The calls.

    def edit(self, text):
        """An edit by its line, without a line feed."""
        past, place = texts_in_sheet(self.sheet, self.lines, self.step)
        state = settled_with(self.sheet, past, text)
        self.check_stores()
        line = history_line(self.next_number(), text)
        self.check_line(place, line)
        self.write(place, line)
        self.state, self.texts = state, past + [text]
        self.step = self.last = self.step + 1

    def edit_name(self, letter, line, name):
        """An edit by an axis, a line and a name; the name first, then the axis."""
        if not reader.good_name(name):
            raise Refused(reader.NAME, 0)
        if letter not in model.LETTERS:
            raise Refused(reader.COUNT, 0)
        self.edit(b"\t".join([ENTER, letter.encode(), b"%d" % line, name]))

    def recall(self, step):
        """The panel that the first edits alone give; the later ones stay."""
        reader.read_all(self.sheet)
        self.check_stores()
        if self.is_above(step):
            raise Refused(reader.NO_STEP, 0)
        texts, _ = texts_in(self.lines, self.recalled_count(step))
        try:
            state = settled(self.sheet, texts)
        except Refused as refused:
            raise Refused(reader.NO_STEP, 0) from refused
        self.state, self.texts = state, texts
        self.step = step
        self.after_recall()


def texts_in_sheet(sheet, lines, count):
    """The edits of the first lines of an accepted sheet's history; a sheet whose lines are refused is told by them."""
    reader.read_all(sheet)
    return texts_in(lines, count)
