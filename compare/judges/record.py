"""Remakes the recorded lists: sheets and entry calls with the answers of the judges."""
import argparse
import os
import random
import sys

import acts
import build
import cell_edges
import cursor_edges
import damage
import differences
import edges
import history
import history_compare
import history_edges
import lists
import maker
import model
import placing
import questions
import reader
import resize as resizing
import resize_edges
import rules
import trial_edges
import wrong_blocks
from answer import calls_of
from compare import Rust, asked_of_the_rust, compare, compare_lines

SEED = 1
DEFAULT_CASES = os.path.join(build.REPOSITORY, "..", "shared", "cases")
# Sheets of each family in `accepted`, and the longest block that is kept.
ACCEPTED = {"general": 1300, "invalid": 200, "tie": 200, "full": 40, "spoiled": 40, "thin": 150}
LONGEST_BLOCK = 3500
# Names of repeats, some 4,096 in all, beside a track in each: no such block is short.
WRITTEN_OUT = 24
LONGEST_WRITTEN_OUT = 12000
# Sheets of the family `grouped` in `large`, and the longest block that is kept.
GROUPED = 40
LONGEST_GROUPED = 15000
# Sheets of the family `cursor` with questions.
ASKED = 20
# Sheets of the family `resize`.
RESIZED = 40
# Sheets of each family in `areas`, each once more for the display call.
DISPLAYED = {"touching": 20, "overlap": 60, "general": 20, "damaged": 20}
# Sheets of each family in `pictures`.
PICTURED = {"picture": 80, "broken": 160}
# Sheets of the family `cells` of which all cells are placed, and of which one is not; and damaged ones.
PLACED, UNPLACED, DAMAGED_CELLS = 160, 40, 80
# Sheets of the family `trial` on which a name is tried with success, and names on each.
TRIED, TRIALS = 30, 6
# Sheets of each family on which acts are made, and the longest block that is kept.
ACTED = {"history": 80, "trial": 15, "thin": 12, "invalid": 12, "cells": 15}
LONGEST_ACTS = 8000
CUT = {"large": 60, "far": 40, "over": 12, "writing_out": 20, "full": 4}
# Refused sheets for each number, record and kind of field.
REFUSED_FOR_EACH = {1: 9, 3: 4, 4: 6}
REFUSED_FOR_OTHERS = 25
ENTRY_LISTS = 150
STORE_LISTS = 4
INVALID_LISTS = 40


class Case:
    """A sheet and calls that the judges agree on, with the answer."""

    def __init__(self, name, sheet, calls, rust, expected=None, display=False):
        result = compare(sheet, calls, rust, (), expected)
        if result.differences:
            raise build.CannotCompare(f"not recorded: the judges differ on {name}: {result.differences[0]}")
        self.name = name
        self.sheet = sheet
        self.calls = calls
        self.display = display
        self.answer = model.Answer(sheet, calls, display)
        self.refused = self.answer.refused
        if self.refused:
            self.calls = []
        self.lines = self.answer_lines(rust)

    def answer_lines(self, rust):
        """The Rust's lines where it speaks, a record's source after them; the model's for refusals, the numbers of calls, cells, marks and pairs."""
        if self.refused or self.answer.unplaced:
            return self.answer.full_answer()
        state = self.answer.state
        lines = rust.ask(asked_of_the_rust(self.sheet, state.panel), state.accepted)[:-2]
        own = model.sheet_lines(state, state.panel.placements) + self.answer.names
        lines = [rules.with_source(line, beside) for line, beside in zip(lines, own, strict=True)]
        # Of a cell's settled fields, which the Rust gives as placements, nothing is printed; its lines are the model's.
        first = len(own) - len(self.answer.names) - len(state.panel.placements)
        kept = [line for placement, line in zip(state.panel.placements, lines[first:]) if not placement.cell]
        printed = lines[:first] + kept + model.cell_lines(state) + lines[first + len(state.panel.placements):]
        return [model.entry_line(number) for number in self.answer.numbers] + printed + self.answer.marks + self.answer.pair

    def question_lines(self):
        """The answers to the questions made for it."""
        return questions.answer_lines(self.answer.state, questions.made(self.sheet, self.answer.state))

    def block(self, cut=False):
        lines = model.cut_lines(self.lines) if cut else self.lines
        expected = model.text_of(lines).encode()
        calls = b"".join(call_line(call) for call in self.calls)
        word = "display" if self.display else "sheet"
        return (f"case {self.name}\n{word} {len(self.sheet)}\n".encode() + self.sheet
                + f"enter {len(self.calls)}\n".encode() + calls
                + f"{'cut' if cut else 'expect'} {len(expected)}\n".encode() + expected)


def call_line(call):
    letter, line, name = call
    return f"{letter}\t{line}\t".encode() + name + b"\n"


def questions_block(name, sheet, calls, rows, display=False):
    """A block with questions, which are answered after the entry calls, and nothing else but these and the pair of areas."""
    answer = model.Answer(sheet, calls, display)
    lines = [model.entry_line(number) for number in answer.numbers] + questions.answer_lines(answer.state, rows) + answer.pair
    expected = model.text_of(lines).encode()
    word = "display" if display else "sheet"
    return (f"case {name}\n{word} {len(sheet)}\n".encode() + sheet + f"enter {len(calls)}\n".encode() + b"".join(map(call_line, calls))
            + f"ask {len(rows)}\n".encode() + model.text_of(rows).encode() + f"expect {len(expected)}\n".encode() + expected)


def edge_block(rust, name, lines, asked, calls=()):
    """Questions whose answers are written by hand."""
    case = Case(name, damage.sheet_of(lines), list(calls), rust)
    rows = [row for row, _ in asked]
    if questions.answer_texts(case.answer.state, rows) != [answer for _, answer in asked]:
        raise build.CannotCompare(f"not recorded: {name} is answered otherwise than its edge says")
    return questions_block(name, case.sheet, case.calls, rows)


def made_questions(family, rust, count):
    """Sheets of a family on which something is answered, with the questions made for each and its entry calls."""
    answered = lambda case: not case.refused and any(not line.startswith("refused") for line in case.question_lines())
    for case in taken(made_cases(family, rust, SEED + 7), count, answered):
        yield questions_block(case.name, case.sheet, case.calls, questions.made(case.sheet, case.answer.state))


def write_resize(rust):
    """Questions of the least resize: the edges, and sheets made for it, where it is asked of both axes."""
    blocks = [edge_block(rust, *edge) for edge in resize_edges.edges()]
    small = lambda case: not case.refused and resizing.is_near(case.answer.state.panel.axes[case.sheet.decode().split("\t")[1]])
    cases = taken(made_cases("resize", rust, SEED + 8), RESIZED, small)
    rows = [questions.resize(letter) for letter in model.LETTERS]
    keep("resize", blocks + [questions_block(case.name, case.sheet, [], rows) for case in cases])


def write_cursor(rust):
    """Questions of the cursor: the edges, one of them displayed, and made ones."""
    blocks = [edge_block(rust, *edge) for edge in cursor_edges.edges()]
    shared = damage.sheet_of(cursor_edges.SHARED)
    blocks.append(questions_block("over areas that share a cell, displayed", shared, [], cursor_edges.SHARED_ROWS, display=True))
    keep("cursor", blocks + list(made_questions("cursor", rust, ASKED)))


def keep(name, blocks):
    """A list that is remade; all are written together at the end."""
    lists.held[name] = b"".join(blocks)
    print(f"{name}: {len(blocks)} blocks, {sum(map(len, blocks))} bytes")


def made_cases(family, rust, seed=SEED):
    """Cases of a family without end."""
    number = 0
    while True:
        sheet, calls, expected, _ = maker.make(seed, number, family)
        yield Case(f"{family} {number}", sheet, calls, rust, expected)
        number += 1


def taken(cases, count, wanted):
    """The first cases that are wanted."""
    found = []
    for case in cases:
        if wanted(case):
            found.append(case)
        if len(found) == count:
            return found


# The lists.

def paper_case(folder, name, rust):
    """A case of the papers; the Rust's answer to the sheet as it stands, by its own sizes, has to be the one that lies beside it."""
    sheet = build.read_bytes(os.path.join(folder, name + ".in"))
    path = os.path.join(folder, name + ".enter")
    calls = calls_of(path if os.path.exists(path) else None)
    case = Case(name, sheet, calls, rust)
    given = build.read_bytes(os.path.join(folder, name + ".out")).decode().splitlines()
    given = [line for line in given if not line.startswith("enter")]
    own = rust.ask(sheet, [(letter, line, text.decode()) for letter, line, text in calls], b"crate")[:-2]
    if not any(line[0].isdigit() for line in given):
        own = model.cut_lines(own)
    if not any(line.startswith("names") for line in given):
        own = [line for line in own if not line.startswith("names")]
    if own != given:
        raise build.CannotCompare(f"not recorded: the Rust answers case {name} otherwise than the papers say")
    return case


def held_case(rust, name, lines, held, calls=()):
    """A sheet whose answer has to hold lines that a paper gives."""
    case = Case(name, damage.sheet_of(lines), list(calls), rust)
    if any(line not in case.lines for line in held):
        raise build.CannotCompare(f"not recorded: {name} is answered otherwise than its paper says")
    return case


def write_cases(rust, folder):
    if not os.path.isdir(folder):
        raise build.CannotCompare(f"not recorded: the papers' cases are not in {folder}")
    names = sorted(name[:-3] for name in os.listdir(folder) if name.endswith(".in"))
    cases = [paper_case(folder, name, rust) for name in names] + [held_case(rust, name, *edges.SHEETS[name]) for name in edges.SHEETS]
    keep("cases", [case.block(cut=len(case.lines) > 3000) for case in cases])


def write_differences(rust):
    """The sheets of docs/DIFFERENCES.md."""
    cases = [held_case(rust, *sheet) for sheet in differences.sheets()]
    keep("differences", [case.block(cut=len(case.lines) > 3000) for case in cases])


def limit_case(name, lines, refusal, rust):
    case = Case(name, damage.sheet_of(lines), [], rust)
    found = (case.refused.number, case.refused.line) if case.refused else None
    if found != refusal:
        raise build.CannotCompare(f"not recorded: limit {name} is answered by {found}")
    return case


def write_limits(rust):
    """Each limit just met and just passed."""
    cases = [limit_case(*sheet, rust) for sheet in edges.limit_sheets()]
    calls = edges.limit_calls()
    cases.append(Case("limits of entry calls", b"", [call for call, _ in calls], rust))
    if cases[-1].answer.numbers != [number for _, number in calls]:
        raise build.CannotCompare("not recorded: the limits of entry calls are answered otherwise")
    keep("limits", [case.block(cut=len(case.lines) > 3000) for case in cases])


def shared_case(name, lines, refusal, pair, rust):
    """A sheet with areas that touch or share a cell, held to its refusal and to the pair that it carries."""
    case = limit_case(name, lines, refusal, rust)
    if case.refused and case.refused.pair != pair:
        raise build.CannotCompare(f"not recorded: {name} is answered with the pair {case.refused.pair}")
    return case


def write_areas(rust):
    """Areas that touch or share a cell, and what the display call answers to the same sheets and to others."""
    cases = [shared_case(*sheet, rust) for sheet in edges.shared_sheets()]
    small = lambda case: len(case.block()) <= LONGEST_BLOCK
    for family, count in DISPLAYED.items():
        cases += taken(made_cases(family, rust, SEED + 6), count, small)
    displayed = [Case(case.name + ", displayed", case.sheet, [], rust, display=True) for case in cases]
    keep("areas", [case.block(cut=len(case.lines) > 3000) for case in cases + displayed])


def picture_case(name, lines, refusal, held, rust):
    """A sheet with a picture, held to its refusal, or to lines of its answer."""
    case = limit_case(name, lines, refusal, rust)
    if any(line not in case.lines for line in held):
        raise build.CannotCompare(f"not recorded: {name} is answered otherwise than its edge says")
    return case


def write_pictures(rust):
    """Pictures of areas, good ones and broken ones, and what the display call answers to some of them."""
    cases = [picture_case(*sheet, rust) for sheet in edges.picture_sheets()]
    displayed = cases[::4]
    small = lambda case: len(case.block()) <= LONGEST_BLOCK
    for family, count in PICTURED.items():
        made = taken(made_cases(family, rust, SEED + 9), count, small)
        cases, displayed = cases + made, displayed + made[::8]
    displayed = [Case(case.name + ", displayed", case.sheet, [], rust, display=True) for case in displayed]
    keep("pictures", [case.block(cut=len(case.lines) > 3000) for case in cases + displayed])


def land_words(found):
    """What the edges write of cells, as an answer: each land's lines, or the refusal."""
    if isinstance(found, int):
        return model.refusal_line(reader.UNPLACED, found)
    return "\t".join(["cells", *[line for land in found for line in land.split()]])


def cell_edge(rust, name, lines, sparse, dense):
    """Cells whose places are written by hand: what is printed, and both packings."""
    case = Case(name, damage.sheet_of(lines), [], rust)
    rows = [questions.cells(placing.SPARSE), questions.cells(placing.DENSE)]
    if questions.answer_lines(case.answer.state, rows) != [land_words(sparse), land_words(dense)]:
        raise build.CannotCompare(f"not recorded: the cells of {name} land otherwise than its edge says")
    count = len(case.answer.state.panel.cells)
    rows += [questions.settled(letter, cell) for cell in range(min(count, 4)) for letter in model.LETTERS]
    return [case.block(cut=len(case.lines) > 3000), questions_block(name + ", asked", case.sheet, [], rows)]


def write_cells(rust):
    """Cells: the edges, and made ones, of which all are placed, or one is not; half of them asked by either packing."""
    blocks = [block for edge in cell_edges.edges() for block in cell_edge(rust, *edge)]
    shared = damage.sheet_of(["area\ta\t1\t2\t1\t3", "area\tb\t1\t3\t2\t4", cell_edges.cell("b / b", "b / b"), cell_edges.cell()])
    blocks.append(Case("over areas that share a cell, displayed", shared, [], rust, display=True).block())
    small = lambda placed: lambda case: not case.refused and case.answer.unplaced != placed and len(case.block()) <= LONGEST_BLOCK
    for placed, count in ((True, PLACED), (False, UNPLACED)):
        cases = taken(made_cases("cells", rust, SEED + 10), count, small(placed))
        blocks += [case.block() for case in cases]
        blocks += [questions_block(case.name + ", asked", case.sheet, case.calls, questions.made(case.sheet, case.answer.state)) for case in cases[::2]]
    refused = taken(made_cases("damaged_cells", rust, SEED + 10), DAMAGED_CELLS, lambda case: case.refused and len(case.sheet) <= LONGEST_BLOCK)
    keep("cells", blocks + [case.block() for case in refused])


def trial_block(case):
    """A sheet with the names that are tried on it after its entry calls."""
    return questions_block(case.name, case.sheet, case.calls, questions.trials(case.sheet, case.answer.state, TRIALS))


def write_trials(rust):
    """Names that are tried: the edges, and sheets made for it, on which some trial is answered."""
    blocks = [edge_block(rust, *edge) for edge in trial_edges.edges()]
    answered = lambda case: not case.refused and b"\ntried\t" in trial_block(case) and len(trial_block(case)) <= LONGEST_BLOCK
    keep("trials", blocks + list(map(trial_block, taken(made_cases("trial", rust, SEED + 11), TRIED, answered))))


def history_block(name, sheet, size, made):
    """A sheet, acts on its panel and history, and their answers."""
    expected = "".join(line + "\n" for line in acts.answer_lines(sheet, size, made)).encode("latin-1")
    return f"history {name}\n".encode() + acts.block_bytes(sheet, size, made) + b"expect %d\n" % len(expected) + expected


def is_answered(act, answer, held):
    """Whether an act is answered as its edge says: of the whole answer of a panel, the lines that have to stand in it."""
    return all(line in answer for line in held) if act[0] in ("show", "cut") else answer == held


def history_edge(name, lines, size, rows):
    """Acts whose answers are written by hand; what a call without an axis answers is not replayed."""
    sheet, session = damage.sheet_of(lines), history.Session(damage.sheet_of(lines), size)
    for act, held in rows:
        if not is_answered(act, acts.act_lines(session, act), held):
            raise build.CannotCompare(f"not recorded: {name} is answered otherwise than its edge says: {act!r}")
    return history_block(name, sheet, size, [act for act, _ in rows if act[:2] != ("enter", acts.NO_AXIS)])


def made_history(case, rust):
    """Acts that are made for a sheet; none where its block is long."""
    made = acts.made(case.sheet, case.answer.state)
    if made is None:
        return None
    difference = history_compare.difference(case.sheet, *made, rust)
    if difference:
        raise build.CannotCompare(f"not recorded: the judges differ on the history of {case.name}: {difference}")
    replayed = [act for act in made[1] if act[:2] != ("enter", acts.NO_AXIS)]
    return history_block(case.name, case.sheet, made[0], replayed)


def write_histories(rust):
    """Panels that are edited and recalled: the edges, and acts made for sheets of several families."""
    blocks = [history_edge(*edge) for edge in history_edges.edges()]
    for family, count in ACTED.items():
        cases = (case for case in made_cases(family, rust, SEED + 12) if not case.refused)
        made = filter(None, (made_history(case, rust) for case in cases))
        blocks += taken(made, count, lambda block: len(block) <= LONGEST_ACTS)
    keep("histories", blocks)


def write_accepted(rust):
    small = lambda case: not case.refused and len(case.block()) <= LONGEST_BLOCK
    cases = [case for family, count in ACCEPTED.items() for case in taken(made_cases(family, rust), count, small)]
    short = lambda case: not case.refused and len(case.block()) <= LONGEST_WRITTEN_OUT
    cases += taken(made_cases("writing_out", rust), WRITTEN_OUT, short)
    middle = lambda case: not case.refused and 20000 <= len(case.block()) <= 60000
    cases += taken(made_cases("general", rust, SEED + 1), 6, middle)
    keep("accepted", [case.block() for case in cases])


def write_cut(rust):
    """Grids of some 10,000 tracks, and many placements beside many names: the records left out."""
    large = lambda case: len(case.lines) > 3000 or case.refused
    cases = [case for family, count in CUT.items() for case in taken(made_cases(family, rust), count, large)]
    short = lambda case: not case.refused and len(case.block(cut=True)) <= LONGEST_GROUPED
    cases += taken(made_cases("grouped", rust), GROUPED, short)
    keep("large", [case.block(cut=True) for case in cases])


def refusal_key(case):
    """What a refusal is about: its number, and the record and fields at its line."""
    lines = case.sheet.split(b"\n")
    line = lines[case.refused.line - 1] if 1 <= case.refused.line <= len(lines) else b""
    fields = line.split(b"\t")
    word = fields[0] if fields[0].decode("latin-1") in reader.RECORDS else b"?"
    kinds = tuple(fields[place] for place in (2, 4, 5) if place < len(fields)) if word in (b"place", b"track", b"axis") else ()
    return case.refused.number, word, len(fields), kinds if case.refused.number in (3, 4) else ()


def write_refused(rust):
    """A few refused sheets for each number, record and kind."""
    seen = {}
    cases = []
    for family, tries in (("damaged", 9000), ("spoiled", 1500), ("writing_out", 60), ("large", 40), ("long", 8)):
        made = made_cases(family, rust)
        for case in (next(made) for _ in range(tries)):
            if not case.refused or (len(case.sheet) > 6000 and family != "long"):
                continue
            key = (family == "long", refusal_key(case))
            seen[key] = seen.get(key, 0) + 1
            if seen[key] <= REFUSED_FOR_EACH.get(case.refused.number, REFUSED_FOR_OTHERS):
                cases.append(case)
    keep("refused", [case.block() for case in cases])


def invalid_and_full():
    """A sheet whose names count as none and still take their bytes of the store, and entries that fill what they leave."""
    name = b"m" * 32
    sheet = b"repeat\tc\t0\n" + b"name\tc\t" + name + b"\ntrack\tc" + b"\tauto\t00000000" * 2 + b"\nend\tc\n" + (b"name\tc\t" + name + b"\n") * 20
    return sheet, [("c", 2, name)] * 1003 + [("c", 1, b"x"), ("r", 1, b"x")]


def write_entries(rust):
    """Lists of entry calls, refused ones among them, and lists that fill the store."""
    mixed = lambda case: not case.refused and len(case.calls) >= 3 and len(case.block()) <= LONGEST_BLOCK
    refused = lambda case: mixed(case) and any(case.answer.numbers)
    cases = taken(made_cases("general", rust, SEED + 2), ENTRY_LISTS, refused)
    cases += taken(made_cases("general", rust, SEED + 3), ENTRY_LISTS, mixed)
    filling = lambda case: not case.refused and reader.CROWDED in case.answer.numbers and len(case.lines) < 1500
    cases += taken(made_cases("store", rust), STORE_LISTS, filling)
    cases += taken(made_cases("invalid", rust, SEED + 5), INVALID_LISTS, mixed)
    cases += [Case("names of an invalid template fill the store", *invalid_and_full(), rust)]
    cases += taken(made_cases("writing_out", rust, SEED + 4), STORE_LISTS, filling)
    keep("entries", [case.block() for case in cases])


def short_block(name, sheet, stores, calls, display=False):
    """A sheet call or a display call, and entry calls, each with the lengths of the two stores that are lent."""
    word = "display" if display else "sheet"
    head = f"case {name}\nstores {stores[0]} {stores[1]}\n{word} {len(sheet)}\n".encode() + sheet
    rows = b"".join(f"{lent[0]}\t{lent[1]}\t".encode() + call_line(call) for lent, call in calls)
    answer = model.Answer(sheet, display=display, stores=stores)
    if not answer.refused:
        answer.numbers = [model.enter(answer.state, *call, lent) for lent, call in calls]
    lines = answer.full_answer()
    expected = model.text_of(lines).encode()
    return head + f"enter {len(calls)}\n".encode() + rows + f"expect {len(expected)}\n".encode() + expected


def write_short(rust):
    """Stores that are short: refusal 10, after every other number."""
    full, less = model.STORE_BYTES, model.STORE_BYTES - 1
    good = b"name\tc\tx\ntrack" + b"\tc" + b"\tauto\t00000000" * 2 + b"\nplace\tc\tnamed\tx\t1\tauto\t-\t0\n"
    blocks = []
    for number, stores in enumerate([(full, full), (less, full), (full, less), (0, 0), (full + 1, full + 9)]):
        for what, sheet in (("good", good), ("bad", good + b"\n"), ("over", b"repeat\tc\t10001\ntrack" + b"\tc" + b"\tauto\t00000000" * 2 + b"\nend\tc\n"),
                            ("shared", b"area\ta\t1\t2\t1\t2\narea\tb\t1\t2\t1\t2\n")):
            blocks.append(short_block(f"short {what} {number}", sheet, stores, []))
            blocks.append(short_block(f"short {what} {number}, displayed", sheet, stores, [], True))
    lent = [(full, full), (less, full), (full, less), (1, 1)]
    calls = [(letter, line, name) for letter in "cr" for line, name in ((1, b"x"), (0, b"x"), (1, b""), (20000, b"y"))]
    blocks.append(short_block("short calls", good, (full, full), [(stores, call) for call in calls for stores in lent]))
    many = [((full, full), ("c", 2, b"m" * 32))] * 1024 + [((less, full), ("c", 2, b"m")), ((full, less), ("c", 2, b"m" * 31))]
    blocks.append(short_block("short and crowded", good, (full, full), many))
    keep("short", blocks)


def line_row(explicit, line):
    """explicit count, grid line, refusal number, origin-zero line, back, and its mark."""
    number = reader.COUNT if explicit > rules.FURTHEST else reader.ZERO_LINE if line == 0 else 0
    if number:
        return f"{explicit}\t{line}\t{number}\t0\t0\tn\n".encode()
    found = rules.origin_zero_line(line, explicit)
    mark = "y" if rules.conversion_mark(line, explicit) else "n"
    return f"{explicit}\t{line}\t0\t{found}\t{rules.grid_line(found, explicit)}\t{mark}\n".encode()


def origin_row(explicit, line):
    """explicit count, `-`, refusal number, origin-zero line, grid line; refusal number and tracks implied before the grid, and after it."""
    outside = reader.COUNT if abs(line) > rules.FURTHEST else 0
    number = reader.COUNT if explicit > rules.FURTHEST else outside
    grid = 0 if number else rules.grid_line(line, explicit)
    before = 0 if outside else max(0, -line)
    after = 0 if number else max(0, line - explicit)
    return f"{explicit}\t-\t{number}\t{line}\t{grid}\t{outside}\t{before}\t{number}\t{after}\n".encode()


def write_lines(rust):
    """Conversions of lines, each explicit count first compared in full with the Rust."""
    chance = random.Random(SEED)
    near = [-32768, -32767, -20002, -20001, -10003, -10002, -10001, -10000, -5, -4, -3, -1, 0, 1, 2, 4, 9999, 10000, 10001, 10002, 32766, 32767]
    rows = [line_row(explicit, line) for explicit, line, _, _ in edges.LINES.values()]
    for explicit, line, found, back in edges.LINES.values():
        if not line_row(explicit, line).startswith(f"{explicit}\t{line}\t0\t{found}\t{back}\t".encode()):
            raise build.CannotCompare("not recorded: an edge of layer 1 is answered otherwise than document 01 says")
    for explicit in [0, 1, 2, 3, 4999, 9998, 9999, 10000] + [chance.randrange(10001) for _ in range(4)]:
        if compare_lines(rust, explicit):
            raise build.CannotCompare("not recorded: the judges differ on the conversion of lines")
        rows += [line_row(explicit, line) for line in near + [chance.randint(-32768, 32767) for _ in range(60)]]
    rows += [line_row(explicit, line) for explicit in (10001, 32767, 65535) for line in near]
    origins = [-32768, -10001, -10000, -9999, -1, 0, 1, 2, 3, 4, 9999, 10000, 10001, 32767]
    rows += [origin_row(explicit, line) for explicit in (0, 3, 9999, 10000, 10001, 65535) for line in origins]
    keep("lines", rows)


def write_wrong():
    """What is wrong on purpose, made from the lists."""
    keep("wrong", wrong_blocks.made())


def check():
    """The lists against docs/DIFFERENCES.md, the files of `vectors` and each other."""
    found = lists.faults()
    if lists.read_list(lists.WRONG) != b"".join(wrong_blocks.made()):
        found.append("the list `wrong` is not made from the others")
    for fault in found:
        print(fault)
    print(f"{len(found)} faults in the recorded lists")
    return 1 if found else 0


WRITERS = {"limits": write_limits, "areas": write_areas, "pictures": write_pictures, "cells": write_cells, "trials": write_trials, "histories": write_histories, "lines": write_lines,
           "short": write_short, "entries": write_entries, "accepted": write_accepted, "refused": write_refused, "large": write_cut,
           "differences": write_differences, "cursor": write_cursor, "resize": write_resize}


def remake(options):
    """The lists that are asked for, the others as they are recorded."""
    rust = Rust(build.build(options.rust))
    if not options.only or "cases" in options.only:
        write_cases(rust, options.cases)
    for name in options.only or WRITERS:
        if name in WRITERS:
            WRITERS[name](rust)
    rust.close()
    write_wrong()
    lists.write_replayed()


def main():
    parser = argparse.ArgumentParser(prog="compare/record", description="Remake the recorded lists.")
    parser.add_argument("--rust", help="folder of the unchanged Rust files")
    parser.add_argument("--cases", default=DEFAULT_CASES, help="folder of the papers' cases")
    parser.add_argument("--check", action="store_true", help="remake nothing: only check what is recorded")
    parser.add_argument("--only", action="append", choices=lists.REPLAYED, help="remake this list alone, and what is wrong on purpose")
    parser.add_argument("--list", choices=lists.REPLAYED + (lists.WRONG,), help="remake nothing: print one of the lists")
    options = parser.parse_args()
    if options.list:
        sys.stdout.buffer.write(lists.read_list(options.list))
        return 0
    if options.check:
        return check()
    remake(options)
    return check()


if __name__ == "__main__":
    build.exit_with(main)
