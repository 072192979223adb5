"""Questions to an accepted panel, each a row parted by tabs, in the form that README.md gives; their answers, and questions made for a sheet."""
import random
import zlib

import binary32
import cursor
import model
import placing
import reader
import resize as resizing

MARKS = 30000  # the item bytes of an axis
FULL = (MARKS, model.STORE_BYTES, model.STORE_BYTES)


# Rows.

def nearest(letter, bits, items=MARKS):
    return f"nearest\t{letter}\t{bits:08x}\t{items}"


def within(letter, low, high, lent=FULL):
    return "\t".join(["within", letter, f"{low:08x}", f"{high:08x}", *map(str, lent)])


def around(letter, line, lent=FULL):
    return "\t".join(["around", letter, str(line), *map(str, lent)])


def resize(letter):
    return f"resize\t{letter}"


def cells(packing, stores=FULL[1:]):
    return "\t".join(["cells", packing, *map(str, stores)])


def settled(letter, cell):
    return f"settled\t{letter}\t{cell}"


def trial(letter, line, name, packing=placing.SPARSE, stores=FULL[1:]):
    """A name without tabs and line feeds."""
    return "\t".join(["try", letter, str(line), name, packing, *map(str, stores)])


def is_trial(row):
    return row.startswith("try\t")


# Answers.

def nearest_answer(state, letter, bits, items):
    number, line = cursor.nearest_line(state, letter, int(bits, 16), int(items))
    return number, [line]


def within_answer(state, letter, low, high, *lent):
    return cursor.placements_within(state, letter, int(low, 16), int(high, 16), *map(int, lent))


def around_answer(state, letter, line, *lent):
    return cursor.placements_around(state, letter, int(line), *map(int, lent))


def resize_answer(state, letter):
    number, size = resizing.least_resize(state.panel.axes[letter])
    return number, ["-" if size is None else size]


def cells_answer(state, packing, *stores):
    """Where the cells land: two column lines and two row lines for each, in sheet order."""
    if any(int(store) < model.STORE_BYTES for store in stores):
        return reader.SHORT, []
    return 0, [line for area in state.lands(packing) for line in (area.column, area.column_end, area.row, area.row_end)]


def settled_answer(state, letter, cell):
    """The settled ends of a cell on an axis, and their marks."""
    half = state.halves()[int(cell)][model.LETTERS.index(letter)]
    names = state.names(letter)
    (start, first), (end, last) = names.resolve(half)
    return 0, [start, first, end, last, *("y" if mark else "n" for mark in names.marks(half))]


ANSWERS = {"nearest": nearest_answer, "within": within_answer, "around": around_answer, "resize": resize_answer, "cells": cells_answer,
           "settled": settled_answer}


def call_of(row):
    """The entry that a trial tries, its packing, and the stores that are lent."""
    _, letter, line, name, packing, *stores = row.split("\t")
    return (letter, int(line), name.encode()), packing, [int(store) for store in stores]


def trial_text(state, row):
    """How many placements and cells there are, a line for each placement, and one for each cell; or the refusal."""
    call, packing, stores = call_of(row)
    number, settled, lands = model.try_name(state, *call, packing, stores)
    lines = [f"tried\t{len(settled)}\t{len(lands)}", *settled, *model.land_lines(lands)]
    return model.refusal_line(number, 0) if number else "\n".join(lines)


def plain_text(state, row):
    """A line: the question's word, then the line, the placements that are listed, the size, or the lines; or the refusal."""
    word, *fields = row.split("\t")
    number, found = ANSWERS[word](state, *fields)
    return model.refusal_line(number, 0) if number else "\t".join([word, *map(str, found)])


def answer_text(state, row):
    """An answer without its last line feed."""
    try:
        return trial_text(state, row) if is_trial(row) else plain_text(state, row)
    except placing.Unplaced as unplaced:
        return model.refusal_line(reader.UNPLACED, unplaced.line)


def answer_texts(state, rows):
    return [answer_text(state, row) for row in rows]


def answer_lines(state, rows):
    return [line for text in answer_texts(state, rows) for line in text.split("\n")]


# Questions made for a sheet, the same ones each time.

# Names that no entry takes; none holds a tab or a line feed.
BAD_NAMES = ["", "n" * 33, "a b", "\x7f", "\x1f", " ", "\u00e9"]
# Entries that are passed over for all placements, and placements, above which no trial is made.
MOST_TRIED, MOST_PLACED = 20000, 120
OUTSIDE = [0x80000000, 0x477fff01, 0x7f800000, 0x7fc00000, 0xbf800000, 0xffffffff, 0xff800000, 0x7f7fffff]


class Asking:
    def __init__(self, sheet, state):
        self.random = random.Random(zlib.crc32(sheet))
        self.state = state

    def chance(self, share):
        return self.random.random() < share

    def pixel(self, letter):
        """A cursor or a span end: at a line, halfway between two or a little beside, anywhere, or outside a length's range."""
        positions = self.state.cursor(letter).positions
        if self.chance(0.04):
            return self.random.choice(OUTSIDE)
        if positions is None or self.chance(0.1):
            return binary32.to_bits(binary32.rounded(self.random.uniform(0, self.random.choice([10, 300, 65535]))))
        place = self.random.randrange(len(positions))
        value = positions[place]
        if self.chance(0.4):
            value = binary32.rounded((value + positions[self.random.choice([place - 1, place])]) / 2)
        bits = binary32.to_bits(value) + self.random.choice([0, 0, 0, 1, -1])
        return min(max(bits, 0), 0x477fff00)

    def lent(self, letter):
        """The item bytes and stores that are lent, now and then too short."""
        if self.chance(0.9):
            return FULL
        tracks = self.state.cursor(letter).tracks
        short = model.STORE_BYTES - 1
        return self.random.choice([(tracks, *FULL[1:]), (max(0, tracks - 1), *FULL[1:]), (MARKS, short, FULL[2]), (MARKS, FULL[1], short), (0, 0, 0)])

    def line(self, letter):
        """A given line: one near those of a placement, one of the grid, or any."""
        settled = [number for placement in self.state.panel.placements if placement.axis == letter
                   for kind, number in self.state.names(letter).resolve(placement) if kind == "line"]
        if settled and self.chance(0.6):
            return max(-32768, min(32767, self.random.choice(settled) + self.random.choice([-1, 0, 1, 1])))
        explicit = self.state.explicit[letter]
        return self.random.choice([0, 1, -1, explicit + 1, explicit + 2, -explicit - 1, -explicit - 2, 32767, -32768, self.random.randint(-9, 9)])

    def one(self, letter):
        way = self.random.randrange(4)
        if way == 0:
            return nearest(letter, self.pixel(letter), self.lent(letter)[0])
        if way == 1:
            return around(letter, self.line(letter), self.lent(letter))
        ends = self.pixel(letter), self.pixel(letter)
        if way == 3 or self.chance(0.5):
            ends = tuple(sorted(ends))
        return within(letter, *ends, self.lent(letter))

    def several(self, letter):
        """More where the axis has an answer."""
        count = 4 if self.state.cursor(letter).positions is not None else 1
        return [self.one(letter) for _ in range(count)] + self.resizes(letter)

    def of_cells(self):
        """Where the cells land by either packing, now and then with short stores, and the settled ends of some."""
        count = len(self.state.panel.cells)
        if not count:
            return [cells(placing.SPARSE)] if self.random.random() < 0.01 else []
        chosen = sorted({0, count - 1, self.random.randrange(count)})
        short = [cells(placing.DENSE, self.random.choice([(32767, 32768), (32768, 32767), (0, 0)]))] if self.chance(0.1) else []
        return [cells(placing.SPARSE), cells(placing.DENSE)] + short + [settled(letter, cell) for cell in chosen for letter in model.LETTERS]

    def names_used(self):
        """The names that placements and cells are put by, with the axis of each."""
        return [(placement.axis, end.name) for placement in self.state.panel.placements for end in (placement.start, placement.end)
                if end.kind in ("named", "nspan")]

    def edges_of_areas(self):
        return [name + suffix for name in self.state.panel.areas for suffix in ("-start", "-end")]

    def tried_name(self):
        """An axis and a name that is used in it, mostly; an edge of an area or a name that is used in the other axis; or one that is none."""
        used = self.names_used()
        letter, name = self.random.choice(used) if used else ("c", "x")
        way = self.random.random()
        if way < 0.05:
            return letter, self.random.choice(BAD_NAMES)
        if way < 0.25:
            name = self.random.choice(self.edges_of_areas() or [(name + self.random.choice(["-start", "-end"]))[-32:]])
        return self.random.choice([letter, letter, letter, "c", "r"]), name[:32]

    def tried_line(self, letter):
        """A line of the grid mostly, one past it, the furthest, or one outside the range."""
        if self.chance(0.12):
            return self.random.choice([0, 20000, 20001, 10001, 10002, 4294967295])
        return self.random.randint(1, self.state.explicit[letter] + self.random.choice([1, 1, 1, 4]))

    def one_trial(self):
        letter, name = self.tried_name()
        stores = self.random.choice([(32767, 32768), (32768, 32767), (0, 0)]) if self.chance(0.04) else FULL[1:]
        return trial(letter, self.tried_line(letter), name, self.random.choice([placing.SPARSE, placing.DENSE]), stores)

    def trials(self, count):
        """So many where names are used; none on what is only displayed, nor where a trial takes long."""
        placements = self.state.panel.placements
        work = sum(len(self.state.entries[placement.axis]) for placement in placements)
        if self.state.panel.display or work > MOST_TRIED or len(placements) > MOST_PLACED:
            return []
        return [self.one_trial() for _ in range(count if self.names_used() else self.chance(0.1))]

    def resizes(self, letter):
        """The least resize, where its answer is soon found, and now and then where it is not."""
        axis = self.state.panel.axes[letter]
        wanted = self.chance(0.03) if not resizing.is_asked(axis) else resizing.is_near(axis) or self.chance(0.03)
        return [resize(letter)] if wanted else []


def browser_rows(state):
    """What is asked besides where browsers draw a panel: its cells packed densely."""
    return [cells(placing.DENSE)] if state.panel.cells else []


def asked(sheet, answer):
    """Questions to the panel of a sheet, and to what is displayed of it, and trials on the panel; none where both are refused."""
    displayed = model.displayed(sheet, answer)
    return [] if displayed.refused else made(sheet, displayed.state) + ([] if answer.refused else trials(sheet, answer.state))


def of_display(rows):
    """Those that can be asked of what is only displayed: nothing can be entered there."""
    return [row for row in rows if not is_trial(row)]


def trials(sheet, state, count=3):
    """Names tried on a state, so many where there are names to try."""
    return Asking(sheet + b"try", state).trials(count)


def made(sheet, state):
    """Questions to a state; none of an axis that has very many tracks, but now and then."""
    asking = Asking(sheet, state)
    small = [letter for letter in model.LETTERS if state.cursor(letter).tracks <= 4000 or asking.chance(0.1)]
    return [row for letter in small for row in asking.several(letter)] + asking.of_cells()
