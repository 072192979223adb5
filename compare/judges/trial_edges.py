"""Names that are tried with the answers that document 02's words (Req 11) give, written by hand: sheets, and rows with their answers, after entry
calls where there are any."""
from cell_edges import AUTO, cell, columns, row_after_row, side, three_rows
from placing import DENSE, SPARSE
from questions import cells as asked_cells
from questions import settled as asked_settled
from questions import trial

FULL = 4096
ONE_SHORT = [(32767, 32768), (32768, 32767), (0, 0)]
BAD_NAMES = ["", "n" * 33, "a b", " ", "\x1f", "\x7f", "\u00e9"]


def place(words, letter="c"):
    """A placement by its two ends, in the words of `cell_edges.side`."""
    return f"place\t{letter}\t{side(words)}"


def end(word):
    """A settled end: `auto`, a line, or `span 2`; with `!` after it where it was held."""
    word = word.rstrip("!")
    if word == AUTO:
        return "auto\t0"
    return "\t".join(word.split()) if word.startswith("span") else f"line\t{word}"


def ends(kind, letter, words):
    start, last = words.split(" / ")
    marks = ["y" if word.endswith("!") else "n" for word in (start, last)]
    return "\t".join([kind, letter, end(start), end(last), *marks])


def placed(words, letter="c"):
    """A settled placement by its two ends."""
    return ends("place", letter, words)


def settled(over_columns, over_rows=f"{AUTO} / {AUTO}"):
    """The settled fields of a cell."""
    return [ends("settled", "c", over_columns), ends("settled", "r", over_rows)]


def tried(lines=(), lands=()):
    """An answer: the settled placements, those of a cell together, and the lines of where cells land."""
    flat = [one for line in lines for one in (line if isinstance(line, list) else [line])]
    found = ["\t".join(["cell", *land.split()]) for land in lands]
    return "\n".join([f"tried\t{len(flat)}\t{len(found)}", *flat, *found])


def refused(row, number, line=0):
    return row, f"refused\t{number}\t{line}"


def both(letter, line, name, answer):
    """The same by either packing."""
    return [(trial(letter, line, name, packing), answer) for packing in (SPARSE, DENSE)]


FREE = f"{AUTO} / {AUTO}"
X_ON_1 = ["name\tc\tx"] + columns(3)


def names():
    """Placements by names."""
    yield "no placements", columns(2), both("c", 1, "x", tried()) + both("r", 20000, "x", tried())
    second = X_ON_1 + [place("x 2")]
    yield "a name once more", second, [
        (trial("c", 3, "x"), tried([placed("3 / auto")])), (trial("c", 2, "x"), tried([placed("2 / auto")])),
        (trial("c", 3, "x"), tried([placed("3 / auto")]))]
    yield "the same line and name again", second, both("c", 1, "x", tried([placed("5 / auto")]))
    yield "a name that is not used", second, both("c", 3, "y", tried([placed("5 / auto")])) + both("c", 3, "X", tried([placed("5 / auto")]))
    yield "a name of the other axis", second + [place("x 2", "r")], [
        (trial("r", 2, "x"), tried([placed("5 / auto"), placed("2 / auto", "r")])), (trial("c", 2, "x"), tried([placed("2 / auto"), placed("3 / auto", "r")]))]
    yield "counted from the end", X_ON_1 + [place("x -1 / x -2")], [
        (trial("c", 4, "x"), tried([placed("4 / 1")])), (trial("c", 2, "x"), tried([placed("2 / 1")]))]
    yield "a named span", X_ON_1 + [place("1 / span x 1"), place("span x 1 / 4"), place("span x 1 / span 2")], [
        (trial("c", 3, "x"), tried([placed("1 / 3"), placed("3 / 4"), placed("span 1 / span 2")])),
        (trial("c", 4, "x"), tried([placed("1 / 4"), placed("1 / 4"), placed("span 1 / span 2")]))]
    yield "several placements in sheet order", X_ON_1 + [place("x 2"), place("1 / 3", "r"), place("y 1"), place("x 1 / x -1")], [
        (trial("c", 4, "x"), tried([placed("4 / auto"), placed("1 / 3", "r"), placed("5 / auto"), placed("1 / 4")])),
        (trial("c", 2, "y"), tried([placed("5 / auto"), placed("1 / 3", "r"), placed("2 / auto"), placed("1 / 1")]))]
    yield "a line that is held", [place("x 1"), place("10002 / x 1"), place("1 / span x 1", "r")], [
        (trial("c", 20000, "x"), tried([placed("10001! / auto"), placed("10002! / 10001!"), placed("1 / 2", "r")])),
        (trial("c", 10001, "x"), tried([placed("10001 / auto"), placed("10002! / 10001"), placed("1 / 2", "r")])),
        (trial("r", 10002, "x"), tried([placed("2 / auto"), placed("10002! / 2"), placed("1 / 10001!", "r")]))]


def areas():
    """Edges of areas, by their suffixes."""
    area = ["area\ta\t2\t4\t2\t4"]
    by_area = area + [place("a / a"), place("a / a", "r")]
    still = [placed("2 / 4"), placed("2 / 4", "r")]
    yield "an edge of an area", by_area, [
        (trial("c", 1, "a-start"), tried([placed("1 / 4"), still[1]])), (trial("c", 3, "a-start"), tried(still)),
        (trial("c", 3, "a-end"), tried([placed("2 / 3"), still[1]])), (trial("r", 1, "a-end"), tried([still[0], placed("2 / 1", "r")])),
        (trial("r", 1, "a-start"), tried([still[0], placed("1 / 4", "r")])), (trial("c", 1, "a"), tried(still))]
    yield "an edge by its own name", area + [place("a-start 2 / a-end -1")], [
        (trial("c", 3, "a-start"), tried([placed("3 / 4")])), (trial("c", 1, "a-start"), tried([placed("2 / 4")])),
        (trial("c", 1, "a-end"), tried([placed("5 / 4")]))]
    yield "an edge without an area", columns(3) + [place("b / b")], [
        (trial("c", 2, "b-start"), tried([placed("2 / 5")])), (trial("c", 3, "b-end"), tried([placed("5 / 3")])),
        (trial("c", 4, "b"), tried([placed("4 / 4")])), (trial("r", 2, "b-start"), tried([placed("5 / 5")]))]


def refusals():
    """Each refusal, and the lowest of several."""
    lines = X_ON_1 + [place("x 2")]
    yield "bad names", lines, [refused(trial(letter, 2, name), 2) for letter in "cr" for name in BAD_NAMES] \
        + [refused(trial("c", 0, ""), 2), refused(trial("c", 2, "", stores=(0, 0)), 2), (trial("c", 2, "n" * 32), tried([placed("5 / auto")])),
           (trial("c", 2, "!"), tried([placed("5 / auto")])), (trial("c", 2, "~"), tried([placed("5 / auto")]))]
    yield "lines outside", lines, [refused(trial(letter, line, "x"), 4) for letter in "cr" for line in (0, 20001, 65536, 4294967295)] \
        + [refused(trial("c", 0, "x", DENSE, (0, 0)), 4), (trial("c", 20000, "y"), tried([placed("5 / auto")])), (trial("r", 20000, "x"), tried([placed("5 / auto")]))]
    yield "short stores", lines, [refused(trial(letter, 2, "x", stores=stores), 10) for letter in "cr" for stores in ONE_SHORT] \
        + [(trial("c", 2, "x", stores=(32768, 32770)), tried([placed("2 / auto")])), (trial("c", 2, "x", DENSE, (32769, 32768)), tried([placed("2 / auto")]))]


def repeated(names):
    """So many entries of y in the columns, 10 of each name, on lines 1 to 10."""
    return ["repeat\tc\t10"] + ["name\tc\ty"] * (names // 10) + columns(1) + ["end\tc"] + ["name\tc\ty"] * (names % 10)


def full():
    """Axes with all entries or bytes that they can have, or all but one."""
    ends_of_x = [place("x 1"), place("x 1", "r")]
    yield "all entries", repeated(FULL) + ends_of_x, [
        refused(trial("c", 2, "x"), 8), refused(trial("c", 1, "y", DENSE), 8), refused(trial("c", 2, "x", stores=(0, 0)), 8),
        refused(trial("c", 2, ""), 2), refused(trial("c", 0, "x"), 4), (trial("r", 3, "x"), tried([placed("12 / auto"), placed("3 / auto", "r")]))]
    yield "all entries but one", repeated(FULL - 1) + ends_of_x, [
        (trial("c", 2, "x"), tried([placed("2 / auto"), placed("2 / auto", "r")])), refused(trial("c", 2, "x", stores=(32767, 32768)), 10),
        (trial("c", 3, "x"), tried([placed("3 / auto"), placed("2 / auto", "r")]))]
    many = [("r", 1, b"m" * 32)] * 1023
    yield "all bytes but 32", ends_of_x, [
        (trial("r", 3, "x"), tried([placed("2 / auto"), placed("3 / auto", "r")])), (trial("r", 3, "n" * 32), tried([placed("2 / auto"), placed("2 / auto", "r")]))], many
    yield "all bytes but one", ends_of_x, [
        (trial("r", 3, "x"), tried([placed("2 / auto"), placed("3 / auto", "r")])), refused(trial("r", 3, "xx"), 8), refused(trial("r", 3, "xx", DENSE, (0, 0)), 8),
        (trial("c", 3, "n" * 32), tried([placed("2 / auto"), placed("2 / auto", "r")]))], many + [("r", 1, b"m" * 31)]
    yield "all bytes", ends_of_x, [
        refused(trial("r", 3, "x"), 8), (trial("c", 3, "x"), tried([placed("3 / auto"), placed("2 / auto", "r")]))], many + [("r", 1, b"m" * 32)]


def cells():
    """Cells that move, lose their place or get one."""
    free = settled(FREE)
    yield "a cell by a name", X_ON_1 + [cell("x -1"), cell()], \
        both("c", 3, "x", tried([settled("3 / auto"), free], ["3 4 1 2", "1 2 2 3"]))[:1] \
        + [(trial("c", 3, "x", DENSE), tried([settled("3 / auto"), free], ["3 4 1 2", "1 2 1 2"])),
           (trial("c", 1, "x"), tried([settled("1 / auto"), free], ["1 2 1 2", "2 3 1 2"])), refused(trial("c", 4, "x"), 15, 5)]
    stays = [(asked_cells(SPARSE), "cells\t1\t2\t1\t2\t2\t3\t1\t2"), (asked_settled("c", 0), "settled\tline\t1\tauto\t0\tn\tn")]
    yield "the panel stays", X_ON_1 + [cell("x -1"), cell()], stays \
        + [(trial("c", 3, "x"), tried([settled("3 / auto"), free], ["3 4 1 2", "1 2 2 3"])), *stays, refused(trial("c", 4, "x"), 15, 5), *stays]
    yield "cells among placements", X_ON_1 + [place("x 2"), cell("x 1 / x 2", "1"), place("1 / 2", "r"), cell()], [
        (trial("c", 3, "x"), tried([placed("3 / auto"), settled("1 / 3", "1 / auto"), placed("1 / 2", "r"), free], ["1 3 1 2", "3 4 1 2"])),
        (trial("c", 4, "x", DENSE), tried([placed("4 / auto"), settled("1 / 4", "1 / auto"), placed("1 / 2", "r"), free], ["1 4 1 2", "1 2 2 3"])),
        refused(trial("c", 3, "y"), 15, 6)]
    yield "a cell in a named row", columns(2) + three_rows() + [cell(AUTO, "x 1"), cell()], [
        (trial("r", 3, "x"), tried([settled(FREE, "3 / auto"), free], ["1 2 3 4", "1 2 1 2"])), (trial("r", 10000, "x"), tried([settled(FREE, "10000 / auto"), free], ["1 2 10000 10001", "1 2 1 2"])),
        refused(trial("r", 10001, "x"), 15, 6), (trial("c", 3, "x"), tried([settled(FREE, "5 / auto"), free], ["1 2 5 6", "1 2 1 2"]))]
    yield "a cell by an area", ["area\ta\t1\t2\t2\t4"] + [cell("a / a", "a / a"), cell()], [
        (trial("c", 1, "a-start"), tried([settled("1 / 4", "1 / 2"), free], ["1 4 1 2", "1 2 2 3"])),
        (trial("c", 3, "a-end"), tried([settled("2 / 3", "1 / 2"), free], ["2 3 1 2", "1 2 1 2"])),
        (trial("r", 1, "a-end"), tried([settled("2 / 4", "1 / 1"), free], ["2 4 1 2", "1 2 1 2"]))]
    yield "a cell that gets a place", columns(2) + [cell("x 1"), cell()], [
        (trial("c", 2, "x"), tried([settled("2 / auto"), free], ["2 3 1 2", "1 2 2 3"])), (trial("c", 2, "x", DENSE), tried([settled("2 / auto"), free], ["2 3 1 2", "1 2 1 2"])),
        refused(trial("c", 3, "x"), 15, 3), refused(trial("c", 2, "y"), 15, 3), refused(trial("r", 1, "x", DENSE), 15, 3)]
    stuck = columns(2) + [cell("x 1", "1"), cell("y 1"), cell("span 3")]
    yield "refusals before 15", stuck, [
        refused(trial("c", 1, ""), 2), refused(trial("c", 0, "x"), 4), refused(trial("c", 1, "x", stores=(32767, 32768)), 10),
        refused(trial("c", 1, "x"), 15, 4), refused(trial("c", 1, "y"), 15, 3), refused(trial("r", 1, "x"), 15, 3)]
    yield "8 before 15", repeated(FULL) + [cell("x 1")], [refused(trial("c", 1, "x"), 8), refused(trial("r", 1, "x"), 15, len(repeated(FULL)) + 1)]
    yield "no columns", [cell("x 1", "1")], [refused(trial("c", 1, "x"), 15, 1)]
    many = ["1 2 1 2"] + row_after_row(256, 16)[1:]
    yield "256 cells", ["name\tc\tx"] + columns(16) + [cell("x 1")] + [cell()] * 255, [(trial("c", 2, "x"), tried([settled("1 / auto")] + [free] * 255, many))]


def edges():
    """(name, lines, rows with their answers, entry calls)."""
    for part in (names, areas, refusals, full, cells):
        for name, lines, asked, *calls in part():
            yield name, lines, asked, calls[0] if calls else []
