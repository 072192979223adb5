"""Puts each wrong reading into the model and shows that the comparison finds it."""

import acts
import build
import cell_edges
import cursor_edges
import damage
import history
import history_edges
import maker
import model
import placing
import questions
import record
import resize_edges
import trial_edges
import wrong
from compare import Rust, compare, first_difference
from judged import LIBRARY, Library, build_library, find
from shrink import shrink

SHEETS = 20000
SEED = 20
FROM_THE_RUST = ("Rust", "cut count", "entry count")
FROM_A_DAMAGE = ("damage",)
FROM_THE_RECOUNT = ("calls",)
FROM_CSS = ("CSS",)
# Readings that no answer of a panel shows, and why.
NOT_BY_THE_LIBRARY = {"the gaps of tracks past 10,000 counted": "a panel of more than 10,000 tracks is refused by 4"}


EVERY = (wrong.FOUND_BY_THE_RUST, wrong.FOUND_BY_DAMAGE, wrong.FOUND_BY_RECOUNT, wrong.FOUND_BY_CSS, wrong.FOUND_BY_EDGES, wrong.FOUND_BY_THE_LIBRARY)


class Remembered:
    """A process that is asked once for each sheet."""

    def __init__(self, process):
        self.process = process
        self.known = {}

    def ask(self, sheet, calls, *rows):
        key = (sheet, tuple(calls))
        if key not in self.known:
            lines = self.process.ask(sheet, calls, *rows)
            if len(lines) > 2000:
                return lines
            self.known[key] = lines
        return self.known[key]


class ByTheJudges:
    """The differences of one sheet that come from the judge in question."""

    def __init__(self, rust, starts):
        self.rust = rust
        self.starts = starts
        self.shrinks = starts != FROM_A_DAMAGE

    def found(self, sheet, calls, expected):
        result = compare(sheet, calls, self.rust, (), expected)
        return [difference for difference in result.differences if difference.startswith(self.starts)]


class ByTheLibrary:
    """The difference of one sheet from the library's answer."""
    starts = (Library.name,)
    shrinks = False

    def __init__(self, process, sheets):
        self.process = process
        self.remembered = Remembered(process)
        # Made before any reading is put in place.
        self.rows = {sheet: questions.asked(sheet, model.Answer(sheet)) for sheet, *_ in sheets}

    def found(self, sheet, calls, expected):
        rows = self.rows[sheet]
        own = self.process.expected(sheet, model.Answer(sheet, calls), rows)
        difference = first_difference(Library.name, own, self.remembered.ask(sheet, calls, rows))
        return [difference] if difference else []


def by_hand():
    """The edges: each with the answers that are written by hand, and its entry calls."""
    written = [*cursor_edges.edges(), *resize_edges.edges()]
    packings = [questions.cells(placing.SPARSE), questions.cells(placing.DENSE)]
    written += [(name, lines, list(zip(packings, map(record.land_words, lands)))) for name, lines, *lands in cell_edges.edges()]
    written = [(name, lines, rows, []) for name, lines, rows in written] + list(trial_edges.edges())
    return [(damage.sheet_of(lines), rows, calls) for _, lines, rows, calls in written]


class ByHand:
    """The difference of one edge from its answers that are written by hand."""
    starts = ("edge",)
    shrinks = False

    def found(self, sheet, rows, calls):
        own = questions.answer_texts(model.Answer(sheet, calls).state, [row for row, _ in rows])
        difference = first_difference("edge", own, [answer for _, answer in rows])
        return [difference] if difference else []


def histories_by_hand():
    """The edges of histories: each with its bytes and its acts."""
    return [(damage.sheet_of(lines), size, rows) for _, lines, size, rows in history_edges.edges()]


def as_calls(rows):
    """The acts of an edge, but for looks at a panel after what no call wrote: the library's program can't show such a one."""
    made = [act for act, _ in rows]
    forged = next((place for place, act in enumerate(made) if act[0] in ("steps", "put")), len(made))
    return made[:forged] + [act for act in made[forged:] if act[0] not in ("show", "cut")]


def histories_made(count=400):
    """Acts that are made for sheets, before any reading is put in place."""
    for sheet, *_ in (maker.make(SEED, number, "history") for number in range(count)):
        state = model.Answer(sheet).state
        made = acts.made(sheet, state) if state else None
        if made:
            yield sheet, *made


# A difference in the bytes of a history is long.
LONGEST_SHOWN = 200


class HistoriesByHand:
    """The difference of one edge of histories from its answers that are written by hand."""
    starts = ("edge",)
    shrinks = False

    def found(self, sheet, size, rows):
        session = history.Session(sheet, size)
        for act, held in rows:
            own = acts.act_lines(session, act)
            difference = first_difference("edge", [line for line in held if line in own] if act[0] in ("show", "cut") else own, held)
            if difference:
                return [difference[:LONGEST_SHOWN]]
        return []


class HistoriesByTheLibrary:
    """The difference of acts on one sheet from the library's answers."""
    starts = (Library.name,)
    shrinks = False

    def __init__(self, process):
        self.process = process
        self.known = {}

    def found(self, sheet, size, made):
        key = sheet, size, tuple(made)
        if key not in self.known:
            self.known[key] = self.process.history_answer(*key)
        difference = first_difference(Library.name, acts.answer_lines(*key), self.known[key])
        return [difference[:LONGEST_SHOWN]] if difference else []


def found(judge, sheet, calls, expected):
    try:
        return judge.found(sheet, calls, expected)
    except (ArithmeticError, AttributeError, IndexError, TypeError, ValueError, AssertionError) as fault:
        return [f"{judge.starts[0]}: the model breaks: {type(fault).__name__}"]


def try_reading(reading, sheets, judge):
    """The number of sheets until the reading is found, the difference, and the smallest sheet."""
    with wrong.put_in_place(reading):
        for number, made in enumerate(sheets, start=1):
            differences = found(judge, *made[:3])
            if not differences:
                continue
            if not judge.shrinks:
                return number, differences[0], None
            differs = lambda *other: bool(found(judge, *other, None))
            small = shrink(made[0], made[1], differs)
            return number, found(judge, *small, None)[0], small
    return None


def one_line(small):
    sheet, calls = small
    lines = sheet.decode("latin-1").splitlines()
    lines += [f"enter {letter} {line} {name.decode('latin-1')}" for letter, line, name in calls]
    return " | ".join(line.replace("\t", " ") for line in lines)


def try_all(readings, sheets, judge):
    missed = 0
    for name, reading in readings.items():
        result = try_reading(reading, sheets, judge)
        if result is None:
            missed += 1
            print(f"NOT FOUND | {name}", flush=True)
            continue
        number, difference, small = result
        print(f"{number:6} | {name} | {difference}" + (f"\n       | smallest: {one_line(small)}" if small else ""), flush=True)
    return missed


def try_library(sheets, acted):
    """Every reading once more, the library the only judge, where it is built."""
    archive = find(None, *LIBRARY)
    if archive is None:
        print("without the library")
        return 0
    print("found by the library's answers:")
    for name, reason in NOT_BY_THE_LIBRARY.items():
        print(f"  none | {name} | {reason}")
    readings = {name: reading for readings in EVERY for name, reading in readings.items()}
    asked = {name: reading for name, reading in readings.items() if name not in NOT_BY_THE_LIBRARY}
    library = Library(build_library(archive))
    missed = try_all(asked, sheets, ByTheLibrary(library, sheets))
    missed += try_all(wrong.FOUND_BY_HISTORIES, acted, HistoriesByTheLibrary(library))
    library.close()
    return missed


def main():
    rust = Rust(build.build())
    # Made before any reading is put in place: the search for ties uses the model.
    sheets = [maker.make(SEED, number) for number in range(SHEETS)]
    print("sheets until found | wrong reading | what the comparison says")
    asked = Remembered(rust)
    missed = try_all(wrong.FOUND_BY_THE_RUST, sheets, ByTheJudges(asked, FROM_THE_RUST))
    missed += try_all(wrong.FOUND_BY_DAMAGE, sheets, ByTheJudges(asked, FROM_A_DAMAGE))
    missed += try_all(wrong.FOUND_BY_RECOUNT, sheets, ByTheJudges(asked, FROM_THE_RECOUNT))
    missed += try_all(wrong.FOUND_BY_CSS, sheets, ByTheJudges(asked, FROM_CSS))
    missed += try_all(wrong.FOUND_BY_EDGES, by_hand(), ByHand())
    acted, written = list(histories_made()), histories_by_hand()
    missed += try_all(wrong.FOUND_BY_HISTORIES, written, HistoriesByHand())
    rust.close()
    missed += try_library(sheets, acted + [(sheet, size, as_calls(rows)) for sheet, size, rows in written])
    count = sum(map(len, EVERY)) + len(wrong.FOUND_BY_HISTORIES)
    print(f"{count} wrong readings, {missed} not found")
    return 1 if missed else 0


if __name__ == "__main__":
    build.exit_with(main)
