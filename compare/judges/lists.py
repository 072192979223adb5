"""The recorded lists: read, counted, written as the input of the program `vectors`, and held to docs/DIFFERENCES.md.

They stand once in the repository, one after the other in the file that `vectors` is run on under the gate. Before each stands
its head, a line `lines ROWS list NAME`: the number of its conversions of lines, which is 0 for a list of blocks. A block of the list
`histories` is a sheet with acts on its panel."""
import os
import re

import browser_sheets
import build

REPLAYED = ("cases", "limits", "areas", "pictures", "cells", "trials", "histories", "short", "entries", "accepted", "refused", "large", "differences", "cursor", "resize", "lines")
WRONG = "wrong"  # replayed after them: what is wrong on purpose
DIFFERENCES = os.path.join(build.REPOSITORY, "docs", "DIFFERENCES.md")
VECTORS = os.path.join(build.REPOSITORY, "crates", "vectors")
RECORDED = os.path.join(VECTORS, "stdin")
HEAD = re.compile(rb"lines \d+ list (\w+)")
held = {}  # the lists by name, once they are read or remade


class Reading:
    """A list, read by counting bytes."""

    def __init__(self, data):
        self.data = data
        self.at = 0

    def line(self):
        end = self.data.index(b"\n", self.at)
        line, self.at = self.data[self.at:end], end + 1
        return line

    def head(self):
        """The word of a line and what follows it."""
        return self.line().split(b" ", 1)

    def part(self, size):
        self.at += int(size)
        return self.data[self.at - int(size):self.at]


class Block:
    """A block of a list, its `case` line read already."""
    acts = 0

    def __init__(self, name, reading):
        self.name = name
        start = reading.at
        word, size = reading.head()
        if word == b"stores":
            word, size = reading.head()
        self.display = word == b"display"
        self.sheet = reading.part(size)
        self.rows = [reading.line() for _ in range(int(reading.head()[1]))]
        self.questions = []
        asked = reading.at
        self.word, size = reading.head()
        if self.word == b"ask":
            self.questions = [reading.line() for _ in range(int(size))]
            asked = reading.at
            self.word, size = reading.head()
        self.asked = reading.data[start:asked]
        self.lines = reading.part(size).decode().splitlines()

    def written(self, name, lines):
        """The same sheet and calls under another name, with other expected lines."""
        expected = "".join(line + "\n" for line in lines).encode()
        return b"case %s\n" % name.encode() + self.asked + b"%s %d\n" % (self.word, len(expected)) + expected


class HistoryBlock:
    """A block of acts on a panel and its history, its `history` line read already."""
    display, rows, questions = False, [], []

    def __init__(self, name, reading):
        self.name = name
        start = reading.at
        reading.head()
        self.sheet = reading.part(reading.head()[1])
        count, size = reading.head()[1].split()
        self.acts = int(count)
        reading.part(size)
        self.asked = reading.data[start:reading.at]
        self.lines = reading.part(reading.head()[1]).decode("latin-1").split("\n")[:-1]

    def written(self, name, lines):
        """The same sheet and acts under another name, with other expected lines."""
        expected = "".join(line + "\n" for line in lines).encode("latin-1")
        return b"history %s\n" % name.encode() + self.asked + b"expect %d\n" % len(expected) + expected


def parts(data):
    """The first line of each part of the lists, with its block, or else with the rows of its conversions."""
    return ((first, block, rows) for _, first, block, rows in placed_parts(data))


def placed_parts(data):
    """The same, each after the place where it starts."""
    reading = Reading(data)
    while reading.at < len(data):
        at = reading.at
        first = reading.line()
        word, rest = first.split(b" ", 1)
        if word == b"lines":
            yield at, first, None, [reading.line() for _ in range(int(rest.split()[0]))]
        else:
            kind = HistoryBlock if word == b"history" else Block
            yield at, first, kind(rest.decode(), reading), []


def parted(data):
    """The lists by name, without their heads."""
    heads = [(at, first) for at, first, _, _ in placed_parts(data) if HEAD.fullmatch(first)]
    ends = [at for at, _ in heads[1:]] + [len(data)]
    return {HEAD.fullmatch(first)[1].decode(): data[at + len(first) + 1:end] for (at, first), end in zip(heads, ends)}


def read_list(name):
    if name not in held:
        held.update(parted(build.read_bytes(RECORDED)) | held)
    return held[name]


def blocks(data):
    """The blocks of a list."""
    return [block for _, block, _ in parts(data) if block]


def call_of(row):
    """An entry line as a call."""
    letter, line, name = row.split(b"\t", 2)
    return letter.decode(), int(line), name


def with_head(name):
    """A list after its head."""
    data = read_list(name)
    rows = data.count(b"\n") if name == "lines" else 0
    return b"lines %d list %s\n" % (rows, name.encode()) + data


def replayed():
    """All lists one after the other: what `vectors` replays under the gate."""
    return b"".join(with_head(name) for name in REPLAYED + (WRONG,))


def totals():
    """What `vectors` has to print, by the lists alone: all that is wrong on purpose differs, and nothing else."""
    found = list(parts(replayed()))
    differs = [first for first, _, _ in parts(read_list(WRONG))]
    read = [block for _, block, _ in found if block]
    counts = {
        "blocks": len(read),
        "calls": sum(len(block.rows) for block in read),
        "questions": sum(len(block.questions) for block in read),
        "acts": sum(block.acts for block in read),
        "rows": sum(len(rows) for _, _, rows in found),
        "different": len(differs),
    }
    named = b"".join(b"differs\t%s\n" % first for first in differs)
    return named + "".join(f"{word}\t{count}\n" for word, count in counts.items()).encode()


def write_replayed():
    for name, data in (("stdin", replayed()), ("stdout", totals())):
        with open(os.path.join(VECTORS, name), "wb") as file:
            file.write(data)


def write_apart(folder, names):
    """Some of the lists as files of a folder, for a program that reads them so."""
    os.makedirs(folder, exist_ok=True)
    for name in names:
        with open(os.path.join(folder, name + ".txt"), "wb") as file:
            file.write(read_list(name))


def write_accepted(folder, name):
    """The sheets of a list that are accepted and not only displayed, without questions, as such a file."""
    kept = [block for block in blocks(read_list(name)) if not block.display and not block.questions
            and (not block.lines[-1].startswith("refused") or block.lines[-1].startswith("refused\t15\t"))]
    with open(os.path.join(folder, name + ".txt"), "wb") as file:
        file.write(b"".join(block.written(block.name, block.lines) for block in kept))


# docs/DIFFERENCES.md names cases as `LIST/CASE`; a case of `lines` is its count and its grid line, or its count,
# `-` and its origin-zero line, one of `browser` a
# sheet that `compare/browser --own` has drawn.

NAMED = REPLAYED + ("browser",)


def names_in(text):
    return re.findall("`(" + "|".join(NAMED) + ")/([^`]+)`", text)


def cases_of(name):
    if name == "browser":
        return set(browser_sheets.SHEETS)
    if name == "lines":
        rows = [row.split("\t") for row in read_list(name).decode().splitlines()]
        return {" ".join(row[:2] + row[3:4] if row[1] == "-" else row[:2]) for row in rows}
    return {block.name for block in blocks(read_list(name))}


def unnamed_rows(text):
    """The rows of tables that name no case."""
    lines = text.splitlines()
    heads = {place + 1 for place, line in enumerate(lines[1:]) if line.startswith("|---")}
    heads |= {place - 1 for place in heads}
    rows = [line for place, line in enumerate(lines) if line.startswith("|") and place not in heads]
    return [row for row in rows if not names_in(row)]


def faults():
    """What is wrong between the lists, docs/DIFFERENCES.md and the files of `vectors`, a line each."""
    text = build.read_bytes(DIFFERENCES).decode()
    cases = {name: cases_of(name) for name in NAMED}
    found = [f"docs/DIFFERENCES.md names {name}/{case}, which is not recorded"
             for name, case in names_in(text) if case not in cases[name]]
    found += [f"docs/DIFFERENCES.md doesn't name browser/{case}" for case in cases["browser"] if ("browser", case) not in names_in(text)]
    found += [f"docs/DIFFERENCES.md has a difference without a recorded case: {row}" for row in unnamed_rows(text)]
    for name, data in (("stdin", replayed()), ("stdout", totals())):
        if build.read_bytes(os.path.join(VECTORS, name)) != data:
            found.append(f"crates/vectors/{name} is not that of the lists")
    return found
