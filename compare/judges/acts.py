"""Acts on a panel and its history, in the form that README.md gives, the model's answers to them, and acts made for a sheet.

An act is its word and what follows it: (`edit`, text), (`enter`, axis, line, name), (`recall`, step); (`lend`, columns, rows): so many bytes of the
stores are lent from then on; (`steps`, step, last) and (`put`, place, bytes): what no call wrote; (`show`,), (`cut`,) and (`lines`,): the whole answer of
the panel, the same without its records, and the bytes of the history."""
import re
import zlib

import areas
import damage
import history
import maker
import model
import placing
import reader
from reader import Refused

# Bytes of a history that is longer than its lines.
LONGEST = 4000
# Above this no acts are made: placements times entries, tracks of an axis, bytes of the sheet.
MOST_WORK, MOST_TRACKS, MOST_BYTES = 2000, 300, 3000
# Axes of an entry; `x` is none.
NO_AXIS = "x"


# The form.

def act_bytes(act):
    """A head, and after it the bytes of a text, which its first number counts."""
    word, *rest = act
    if word == "edit":
        return b"edit %d\n" % len(rest[0]) + rest[0]
    if word == "enter":
        letter, line, name = rest
        return b"enter %d %s %d\n" % (len(name), letter.encode(), line) + name
    if word == "put":
        place, data = rest
        return b"put %d %d\n" % (len(data), place) + data
    return " ".join([word, *map(str, rest or (0,))]).encode() + b"\n"


def written(row):
    """An act by a line: `recall` and a step, or an edit."""
    found = re.fullmatch(rb"recall\t(\d+)", row)
    return ("recall", int(found[1])) if found else ("edit", row)


def block_bytes(sheet, size, acts):
    """A sheet, the bytes of its history, and acts."""
    text = b"".join(map(act_bytes, acts))
    return b"bytes %d\nsheet %d\n" % (size, len(sheet)) + sheet + b"acts %d %d\n" % (len(acts), len(text)) + text


# The model's answers.

def pair_lines(refused):
    return [f"pair\t{refused.pair[0]}\t{refused.pair[1]}"] if refused.pair != reader.NO_PAIR else []


def shown(state):
    """The whole answer of a panel."""
    try:
        return model.sheet_lines(state) + model.cell_lines(state) + model.name_lines(state) + model.mark_lines(state)
    except placing.Unplaced as unplaced:
        return [model.refusal_line(reader.UNPLACED, unplaced.line)]


CALLS = {"edit": "edit", "enter": "edit_name", "recall": "recall"}


def call(session, word, rest):
    getattr(session, CALLS[word])(*rest)


def called(session, word, rest):
    """A call: the step and the last step, or the refusal, and with 12 its pair."""
    try:
        call(session, word, rest)
    except Refused as refused:
        session.after_refusal()
        return [model.refusal_line(refused.number, refused.line), *pair_lines(refused)]
    return [f"step\t{session.step}\t{session.last}"]


def act_lines(session, act):
    """What one act answers, as lines."""
    word, *rest = act
    if word == "lend":
        session.stores = tuple(rest)
    elif word == "steps":
        session.step, session.last = rest
    elif word == "put":
        session.lines[rest[0]:rest[0] + len(rest[1])] = rest[1]
    elif word == "show":
        return shown(session.state)
    elif word == "cut":
        return model.cut_lines(shown(session.state))
    elif word == "lines":
        return bytes(session.lines).decode("latin-1").split("\n")
    else:
        return called(session, word, rest)
    return []


def answer_lines(sheet, size, acts):
    """What all acts answer."""
    session = history.Session(sheet, size)
    return [line for act in acts for line in act_lines(session, act)]


# Acts made for a sheet, the same ones each time.

# Texts of no edit.
OTHER_WORDS = [b"", b"\t", b"name\tc\tx", b"cell\tauto\t-\t0\tauto\t-\t0\tauto\t-\t0\tauto\t-\t0", b"row\ta\ta", b"item\tc\t0", b"axis\tc\t-\tmax\tlen\t00000000",
               b"repeat\tc\tfill", b"end\tc", b"spare\tc\tauto\t00000000\tauto\t00000000", b"extra\tc\t1\t1", b"Area\ta\t1\t2\t1\t2", b"area", b"enter", b"enter\tc\t1",
               b"enter\tx\t1\ta", b"enter\tc\t01\ta", b"enter\tc\t1\ta\tb", b"enter\tc\t+1\ta", b"enter\tc\t\ta", b"enter\tc\t1\ta\n", b"place\tc\tline\t-\t1\tauto\t-\t0\n",
               b"1\tenter\tc\t1\ta", b"track\tc\tauto\t00000000\tauto\t00000000\ntrack\tc\tauto\t00000000\tauto\t00000000"]
# Names that no entry takes, without tabs.
BAD_NAMES = [b"", b"n" * 33, b"a b", b"\x7f", b"\x80", b"a\n", b" "]
BAD_LINES = [0, 20001, 65536, 4294967295]


class Making(maker.Maker):
    """Acts on the panel of a sheet."""

    def __init__(self, sheet, state):
        super().__init__(zlib.crc32(b"history" + sheet), 0)
        self.extreme = self.chance(0.05)
        self.state = state
        self.names = self.names_of_sheet() or self.names

    def names_of_sheet(self):
        """Names that placements are put by, and those of areas with their suffixes."""
        panel = self.state.panel
        used = [end.name for placement in panel.placements for end in (placement.start, placement.end) if end.kind in ("named", "nspan")]
        edges = [name + suffix for name in panel.areas for suffix in ("-start", "-end")]
        self.random.shuffle(edges)
        return list(dict.fromkeys(used + [name for name in edges[:4] if len(name) <= 32]))

    # Edits.

    def area_edit(self):
        """An area apart from those of the sheet mostly, by another name mostly."""
        drawn = [(area.row_start, area.row_end, area.column_start, area.column_end) for area in self.state.panel.areas.values()]
        area = areas.apart(drawn, self.area) if self.chance(0.8) else self.area()
        names = [name for name in self.names + ["d0", "d1", "d2", "d3"] if name not in self.state.panel.areas]
        name = self.pick(names) if self.chance(0.9) else self.pick(list(self.state.panel.areas) or names)
        return areas.line(name, area or (7, 8, 7, 8))

    def track_edit(self):
        return f"track\t{self.pick('ccr')}\t{self.track(self.chance(0.8))}"

    def place_edit(self):
        return f"place\t{self.pick('ccr')}\t{self.end()}\t{self.end()}"

    def entry(self):
        letter, line, name = self.pick("ccr"), self.random.randint(1, self.pick([3, 6, 12])), self.used_name().encode()
        if self.chance(0.06):
            name = self.pick(BAD_NAMES)
        if self.chance(0.06):
            line = self.pick(BAD_LINES)
        return letter, line, name

    def sheet_edit(self):
        return self.pick([self.area_edit, self.track_edit, self.track_edit, self.place_edit, self.place_edit])()

    def edit(self):
        """An edit by its line or by a name, now and then with a fault."""
        way = self.random.random()
        if way < 0.3:
            letter, line, name = self.entry()
            return "enter", NO_AXIS if self.chance(0.03) else letter, line, name
        if way < 0.45:
            letter, line, name = self.entry()
            return "edit", b"enter\t%s\t%d\t%s" % (letter.encode(), line, name)
        if way < 0.5:
            return "edit", self.pick(OTHER_WORDS)
        if way < 0.6:
            return "edit", damage.damage_fields(self.random, self.sheet_edit())[0]
        return "edit", self.sheet_edit().encode()

    # Recalls and what is looked at.

    def recall(self, steps):
        """To any step that there may be, to none or above the last."""
        return "recall", self.pick([0, 0, 1, steps + 1, steps + 2, *range(steps + 1), *range(steps + 1)])

    def short(self):
        """Stores that are too short for one act, and full ones again."""
        act = self.recall(3) if self.chance(0.4) else self.edit()
        return [("lend", *self.pick([(32767, 32768), (32768, 32767), (0, 0)])), act, ("lend", 32768, 32768)]

    def acts(self, count):
        """Edits and recalls, a look at the panel after most of them."""
        found = []
        for step in range(count):
            way = self.random.random()
            found += self.short() if way < 0.04 else [self.recall(min(step, 6))] if way < 0.25 else [self.edit()]
            found += [("show",)] if self.chance(0.5) else []
            found += [("lines",)] if self.chance(0.1) else []
        return found + [("show",), ("lines",)]

    def forgery(self):
        """What no call wrote: other steps, or other bytes."""
        if self.chance(0.4):
            return "steps", self.pick([0, 1, 2, 3, 4294967295]), self.pick([0, 1, 2, 5, 4294967295])
        data = self.pick([b"1\t", b"2\t", b"\n", b"0", b"1\tenter\tc\t1\tx\n", b"1\tname\tc\tx\n", b"1\tarea\ta\t1\t2\t1\t2\n2\tarea\ta\t1\t2\t1\t2\n", bytes([self.random.randrange(256)])])
        return "put", self.pick([0, 0, 1, self.random.randrange(40)]), data

    def forged(self):
        """Acts after what no call wrote; the panel is no answer of these."""
        return [act for _ in range(self.pick([1, 2])) for act in [self.forgery(), self.recall(3), self.edit(), ("lines",)]]


def fitting(sheet, acts):
    """The bytes of the lines up to a look at them, which a history may just have or lack one of."""
    session = history.Session(sheet, LONGEST)
    found = [0]
    for act in acts:
        act_lines(session, act)
        found.append(sum(len(history.history_line(number, text)) for number, text in enumerate(session.texts, start=1)))
    return found


def is_small(sheet, state):
    """Whether acts on a panel don't take long."""
    work = sum(1 + len(state.entries[placement.axis]) for placement in state.panel.placements)
    tracks = max(2 * state.explicit[letter] + state.panel.axes[letter].negative + state.panel.axes[letter].positive for letter in model.LETTERS)
    return work <= MOST_WORK and tracks <= MOST_TRACKS and len(sheet) <= MOST_BYTES


def within(size, acts):
    """The acts that write into so many bytes."""
    return [act for act in acts if act[0] != "put" or act[1] + len(act[2]) <= size]


def made(sheet, state, count=8):
    """The bytes of a history, and acts on it; none on a large panel."""
    if not is_small(sheet, state):
        return None
    making = Making(sheet, state)
    acts = making.acts(making.random.randint(1, count))
    forged = making.forged() if making.chance(0.3) else []
    size = LONGEST if making.chance(0.6) else max(0, making.pick(fitting(sheet, acts)) - making.pick([0, 0, 1]))
    return size, within(size, acts + forged)
