"""Cells with the lines that document 02's words (Req 10) and CSS 8.3.1 and 8.5 give them, written by hand: sheets, and where the cells land by
sparse and by dense packing, or the line of the cell that has no place."""
from edges import TRACK, rows

AUTO = "auto"
FURTHEST = 10000


def end(word):
    """`auto`, a line, `span 2`, `x` or `x 2` (a name and its index), `span x 2`."""
    parts = str(word).split()
    if word == AUTO:
        return "auto\t-\t0"
    if parts[0] == "span":
        return f"span\t-\t{parts[1]}" if len(parts) == 2 else f"nspan\t{parts[1]}\t{parts[2]}"
    if parts[0].lstrip("-").isdigit():
        return f"line\t-\t{parts[0]}"
    return f"named\t{parts[0]}\t{parts[1] if len(parts) == 2 else 0}"


def side(words):
    """`a / b`, or `a` alone."""
    start, _, last = words.partition(" / ")
    return f"{end(start)}\t{end(last or AUTO)}"


def cell(columns=AUTO, over=AUTO):
    """A cell by its columns and its rows."""
    return f"cell\t{side(columns)}\t{side(over)}"


def columns(count):
    return [f"track\tc\t{TRACK}"] * count


def three_rows():
    return [f"track\tr\t{TRACK}"] * 3


def row_after_row(count, width):
    """Where cells of one track land in a grid that is empty."""
    return [f"{at % width + 1} {at % width + 2} {at // width + 1} {at // width + 2}" for at in range(count)]


def edges():
    """(name, lines, sparse, dense): lands as `c1 c2 r1 r2`, or the line of the cell that is refused by 15."""
    both = lambda name, lines, found: (name, lines, found, found)
    yield both("no cells", columns(2), [])
    yield both("one after the other", columns(2) + [cell()] * 3, ["1 2 1 2", "2 3 1 2", "1 2 2 3"])
    yield both("no columns", [cell()], 1)
    yield both("no columns, all lines", ["item\tc\t0", cell("1", "1")], 2)
    # The sides of 8.3.1.
    yield both("swapped ends", columns(4) + three_rows() + [cell("4 / 2", "3 / 1")], ["2 4 1 3"])
    yield both("equal ends", columns(4) + [cell("3 / 3", "2 / 2")], ["3 4 2 3"])
    yield both("equal ends on the last line", columns(2) + [cell("3 / 3", "1")], 3)
    yield both("of two spans the start's", columns(5) + [cell("span 2 / span 4", "1")], ["1 3 1 2"])
    yield both("two named spans", columns(5) + [cell("span x 3 / span y 4", "span x 2 / span 3")], ["1 2 1 2"])
    yield both("a span before a named span", columns(5) + [cell("span 3 / span y 4", "1")], ["1 4 1 2"])
    yield both("a named span before a span", columns(5) + [cell("span y 4 / span 3", "1")], ["1 2 1 2"])
    yield both("a line and a span", columns(5) + three_rows() + [cell("2 / span 3", "span 2 / 4")], ["2 5 2 4"])
    yield both("a line alone", columns(3) + [cell("2", "3")], ["2 3 3 4"])
    yield both("an end alone", columns(3) + [cell("auto / 3", "auto / 4")], ["2 3 3 4"])
    yield both("negative lines", columns(4) + three_rows() + [cell("-5 / -1", "-1")], ["1 5 4 5"])
    yield both("negative lines within", columns(4) + three_rows() + [cell("-5 / -1", "-2")], ["1 5 3 4"])
    yield both("line 0 counts as auto", columns(2) + [cell("1", "1"), cell("0", "0 / 0"), cell("0 / span 2", "1")], 5)
    yield "line 0 and a span", columns(2) + [cell("1", "1"), cell("0 / span 2", "0"), cell("span 1 / 0")], \
        ["1 2 1 2", "1 3 2 3", "1 2 3 4"], ["1 2 1 2", "1 3 2 3", "2 3 1 2"]
    yield both("line 0 alone", columns(1) + [cell("0", "0")], ["1 2 1 2"])
    yield both("line 0 beside a line", columns(3) + [cell("0 / 3", "2 / 0")], ["2 3 2 3"])
    yield both("a named span beside line 0", columns(3) + [cell("0 / span x 2", "1")], ["1 2 1 2"])
    # Edges and rectangles outside.
    yield both("a line past the columns", columns(2) + [cell("3", "1")], 3)
    yield both("a line past the columns, free row", columns(2) + [cell("4")], 3)
    yield both("a span past the columns", columns(2) + [cell("2 / span 2", "1")], 3)
    yield both("a span before the columns", columns(2) + [cell("span 2 / 2", "1")], 3)
    yield both("a row before the first", columns(2) + [cell("1", "-2")], 3)
    yield both("the first row from the end", columns(2) + [cell("1", "-1")], ["1 2 1 2"])
    yield both("a span before the rows", columns(2) + [cell("1", "span 2 / 2")], 3)
    yield both("a name that no line bears", columns(2) + [cell("x 1", "1")], 3)
    yield both("a wide span", columns(3) + [cell("span 4")], 4)
    yield both("a wide span in a row", columns(3) + [cell("span 4", "1")], 4)
    yield both("as wide as the grid", columns(3) + [cell("span 3"), cell("span 3")], ["1 4 1 2", "1 4 2 3"])
    yield both("the last row", columns(1) + [cell("1", str(FURTHEST))], [f"1 2 {FURTHEST} {FURTHEST + 1}"])
    yield both("past the last row", columns(1) + [cell("1", str(FURTHEST + 1))], 2)
    yield both("past the last row, free column", columns(1) + [cell(AUTO, str(FURTHEST + 1))], 2)
    yield both("far past the last row", columns(1) + [cell("1", "32767")], 2)
    yield both("an end on the last row line", columns(1) + [cell("1", f"auto / {FURTHEST + 1}")], [f"1 2 {FURTHEST} {FURTHEST + 1}"])
    yield both("a span over the last row", columns(1) + [cell("1", f"{FURTHEST - 1} / span 2"), cell("1", f"{FURTHEST} / span 2")], 3)
    post = cell("1", f"1 / {FURTHEST + 1}")
    yield both("below a post there is nothing", columns(1) + [post, cell()], 3)
    yield both("beside a post", columns(2) + [post, cell(), cell()], [f"1 2 1 {FURTHEST + 1}", "2 3 1 2", "2 3 2 3"])
    short = cell("1", f"1 / {FURTHEST - 1}")
    yield both("the rows left below a post", columns(1) + [short, cell(), cell(AUTO, "span 1")], [f"1 2 1 {FURTHEST - 1}", f"1 2 {FURTHEST - 1} {FURTHEST}", f"1 2 {FURTHEST} {FURTHEST + 1}"])
    yield both("too few rows left below a post", columns(1) + [short, cell(), cell(AUTO, "span 2")], 4)
    yield both("a fixed column below a post", columns(2) + [short, cell("1"), cell("1"), cell("1")], 6)
    # Steps 1, 2 and 4.
    yield both("fixed items may share cells", columns(2) + [cell("1 / 3", "1"), cell("2", "1"), cell()], ["1 3 1 2", "2 3 1 2", "1 2 2 3"])
    yield both("fixed items first", columns(2) + [cell(), cell("1", "1")], ["2 3 1 2", "1 2 1 2"])
    yield both("fixed rows before the rest", columns(2) + [cell(), cell(AUTO, "1"), cell("2", "1")], ["1 2 2 3", "1 2 1 2", "2 3 1 2"])
    yield "a row's cursor", columns(4) + [cell("2", "1"), cell("span 2", "1"), cell(AUTO, "1")], 7, ["2 3 1 2", "3 5 1 2", "1 2 1 2"]
    yield both("a cursor for each first row", columns(3) + [cell("span 2", "1"), cell(AUTO, "2"), cell(AUTO, "1")], ["1 3 1 2", "1 2 2 3", "3 4 1 2"])
    yield both("a row's cursor not moved by items from above", columns(3) + [cell("1", "1"), cell(AUTO, "1 / 3"), cell(AUTO, "2")], ["1 2 1 2", "2 3 1 3", "1 2 2 3"])
    yield both("no room in a row", columns(2) + [cell("span 2", "1"), cell(AUTO, "1")], 4)
    yield "holes", columns(3) + [cell("span 2"), cell("span 2"), cell()], ["1 3 1 2", "1 3 2 3", "3 4 2 3"], ["1 3 1 2", "1 3 2 3", "3 4 1 2"]
    yield "a column before the cursor", columns(3) + [cell(), cell(), cell("1"), cell()], ["1 2 1 2", "2 3 1 2", "1 2 2 3", "2 3 2 3"], ["1 2 1 2", "2 3 1 2", "1 2 2 3", "3 4 1 2"]
    yield both("a column at the cursor", columns(3) + [cell(), cell("1")], ["1 2 1 2", "1 2 2 3"])
    yield "a column after the cursor", columns(3) + [cell(), cell("3"), cell()], ["1 2 1 2", "3 4 1 2", "1 2 2 3"], ["1 2 1 2", "3 4 1 2", "2 3 1 2"]
    yield "a column at the cursor, further down", columns(2) + [cell("2"), cell("2"), cell("1"), cell()], \
        ["2 3 1 2", "2 3 2 3", "1 2 3 4", "2 3 3 4"], ["2 3 1 2", "2 3 2 3", "1 2 1 2", "1 2 2 3"]
    yield "tall cells", columns(2) + [cell(AUTO, "span 2"), cell(), cell("span 2"), cell()], ["1 2 1 3", "2 3 1 2", "1 3 3 4", "1 2 4 5"], ["1 2 1 3", "2 3 1 2", "1 3 3 4", "2 3 2 3"]
    yield both("the last column and row are used", columns(2) + three_rows() + [cell("-2", "-2"), cell("1", "3"), cell("2", "1")], ["2 3 3 4", "1 2 3 4", "2 3 1 2"])
    yield "the first in placing order", columns(2) + [cell("span 3"), cell("1", "-2"), cell("3", "1")], 4, 4
    yield both("a column outside in its own turn", columns(2) + [cell("4"), cell("span 3", "1")], 4)
    yield both("a refused one after others", columns(2) + [cell(), cell("span 3"), cell()], 4)
    # Beside all else.
    yield both("by areas", ["area\ta\t2\t4\t2\t3", cell("a / a", "a / a"), cell(), cell()], ["2 3 2 4", "1 2 1 2", "2 3 1 2"])
    yield both("by a picture", rows("a . .", ". . .") + [cell("a / a", "a / a"), cell("span 3")], ["1 2 1 2", "1 4 2 3"])
    yield both("by names", ["name\tc\tx"] + columns(2) + ["name\tc\tx", cell("x -1", "1")], 5)
    yield both("by named spans", ["name\tc\tx"] + columns(3) + ["name\tc\tx", cell("x 1 / span x 1", "2")], ["1 4 2 3"])
    yield both("collapsed tracks are landed in", ["axis\tc\t42c80000\tmax\tlen\t00000000", "repeat\tc\tfit", "track\tc\tlen\t42480000\tlen\t42480000", "end\tc", cell(), cell(), cell()],
               ["1 2 1 2", "2 3 1 2", "1 2 2 3"])
    yield both("implicit columns are none", columns(1) + ["extra\tc\t2\t2", cell("2", "1")], 3)
    yield both("among placements", columns(2) + ["place\tc\tline\t-\t1\tauto\t-\t0", cell(), "place\tr\tline\t-\t2\tauto\t-\t0", cell("1")], ["1 2 1 2", "1 2 2 3"])
    yield both("256 cells in 16 columns", columns(16) + [cell()] * 256, row_after_row(256, 16))
    yield both("an invalid template has no columns", ["repeat\tc\t0"] + columns(1) + ["end\tc", cell()], 4)
    yield both("32 columns and rows", columns(33) + [cell("span 32", "span 32"), cell("span 32"), cell()], ["1 33 1 33", "1 33 33 34", "33 34 33 34"])[:3] + \
        (["1 33 1 33", "1 33 33 34", "33 34 1 2"],)
