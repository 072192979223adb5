"""Document 01's edges M1 to M12, with the answers that it writes beside them; of M7 those of document 02, Req 05; and the marks of document 02."""

TRACK_100 = "track\tc\tlen\t42c80000\tlen\t42c80000"

# M1 to M3: explicit count, grid line, origin-zero line, and back.
LINES = {
    "M1": (3, -1, 3, 4),
    "M2": (3, -5, -1, -5),
    "M3": (3, 32767, 10000, 10001),
}


def repeated(inner, rule="max", gap="41200000", size="42c80000"):
    return [f"axis\tc\t{inner}\t{rule}\tlen\t{gap}", "repeat\tc\tfill", f"track\tc\tlen\t{size}\tlen\t{size}", "end\tc"]


X_ON_1_AND_3 = ["name\tc\tx", TRACK_100, TRACK_100, "name\tc\tx", TRACK_100]

# M4 to M12: a sheet, and lines that its answer has to hold.
SHEETS = {
    "M4": (repeated("43a00000"), ["size\tc\t3\t3"]),
    "M5 max": (repeated("439f8000"), ["size\tc\t2\t2"]),
    "M5 min": (repeated("439f8000", "min"), ["size\tc\t3\t3"]),
    "M6 small": (repeated("42c60000"), ["size\tc\t1\t1"]),
    "M6 none": (repeated("-"), ["size\tc\t1\t1"]),
    "M7 inner 10": (repeated("41200000", "max", "00000000", "00000000"), ["size\tc\t10\t10"]),
    "M7 inner 0": (repeated("00000000", "max", "00000000", "00000000"), ["size\tc\t1\t1"]),
    "M8": (X_ON_1_AND_3 + ["place\tc\tnamed\tx\t2\tnamed\tx\t3", "place\tc\tnamed\tx\t-3\tauto\t-\t0"],
           ["place\tc\tline\t3\tline\t5", "place\tc\tline\t-5\tauto\t0"]),
    "M9": (X_ON_1_AND_3 + ["place\tc\tline\t-\t1\tnspan\tx\t1"], ["place\tc\tline\t1\tline\t3"]),
    "M10": (X_ON_1_AND_3 + ["place\tc\tline\t-\t0\tnspan\tx\t1"], ["place\tc\tline\t0\tspan\t1"]),
    "M11": (["area\ta\t1\t2\t2\t4", "name\tc\ta-start", TRACK_100, TRACK_100, TRACK_100,
             "place\tc\tnamed\ta\t0\tnamed\ta-start\t2"], ["place\tc\tline\t1\tline\t2"]),
    "M12": (["axis\tc\t43960000\tmax\tlen\t00000000", "repeat\tc\tfit", TRACK_100, "end\tc", "item\tc\t1"],
            ["size\tc\t3\t3", "3\ttrack\tn\tlen\t42c80000\tlen\t42c80000\ta"]
            + [f"{index}\t{kind}\ty\tlen\t00000000\tlen\t00000000\t{source}"
               for index, kind, source in ((0, "gutter", "-"), (1, "track", "a"), (2, "gutter", "-"), (4, "gutter", "-"),
                                           (5, "track", "a"), (6, "gutter", "-"))]),
}


# Marks: a written line at each limit and one past it, a line found past the limit and one only counted past, a span that takes a mark over,
# and no mark where there is no line. x is on line 2, and a on none.
X_ON_2 = [TRACK_100, "name\tc\tx", TRACK_100, TRACK_100]
SHEETS.update({
    "marks of lines": (X_ON_2 + ["place\tc\tline\t-\t10001\tline\t-\t10002", "place\tc\tline\t-\t-10005\tline\t-\t-10004"],
                       ["held\tc\tn\ty", "held\tc\ty\tn"]),
    "marks of names": (X_ON_2 + ["place\tc\tnamed\ta\t9997\tnamed\ta\t9998"], ["place\tc\tline\t10001\tline\t10001", "held\tc\tn\ty"]),
    "marks of spans": (X_ON_2 + ["place\tc\tnspan\tx\t1\tline\t-\t10002", "place\tc\tnspan\ta\t10001\tline\t-\t2"],
                       ["place\tc\tline\t2\tline\t10002", "held\tc\ty\ty", "place\tc\tline\t-10004\tline\t2", "held\tc\ty\tn"]),
    "no marks": (X_ON_2 + ["place\tc\tline\t-\t0\tnspan\tx\t1", "place\tc\tspan\t-\t65535\tauto\t-\t0"], ["held\tc\tn\tn"]),
})


# Limits: each just met, and just passed with the refusal (number, line) of document 01's table.

TRACK = "auto\t00000000\tauto\t00000000"
ZERO_TRACK = "len\t00000000\tlen\t00000000"


def axis_line(inner="-", kind="len", gap="00000000"):
    return f"axis\tc\t{inner}\tmax\t{kind}\t{gap}"


def place_line(start, end="auto\t-\t0"):
    return f"place\tc\t{start}\t{end}"


def cell_line(columns_start="auto\t-\t0", rows_end="auto\t-\t0"):
    return f"cell\t{columns_start}\tauto\t-\t0\tauto\t-\t0\t{rows_end}"


def just_met_and_passed():
    """Single lines: (name, the line that meets the limit, the line that passes it, its number)."""
    size = lambda kind, bits: f"track\tc\tauto\t00000000\t{kind}\t{bits}"
    yield "inner size", axis_line("477fff00"), axis_line("477fff01"), 3
    yield "inner zero", axis_line("00000000"), axis_line("80000000"), 3
    yield "gap length", axis_line(gap="477fff00"), axis_line(gap="477fff01"), 3
    yield "gap percentage", axis_line(kind="pct", gap="41200000"), axis_line(kind="pct", gap="41200001"), 3
    for kind, most, more in (("len", "477fff00", "477fff01"), ("fr", "477fff00", "477fff01"), ("fitl", "477fff00", "477fff01"),
                             ("pct", "41200000", "41200001"), ("fitp", "41200000", "41200001"), ("auto", "00000000", "00000001")):
        yield f"size {kind}", size(kind, most), size(kind, more), 3
        yield f"size {kind} smallest", size(kind, "00000000"), size(kind, "80000000"), 3
    yield "smallest f32", size("len", "00000001"), size("len", "80000001"), 3
    yield "infinite", size("len", "477ffeff"), size("len", "7f800000"), 3
    yield "no number", size("fr", "00800000"), size("fr", "7fc00001"), 3
    yield "row edge", "area\ta\t1\t10001\t1\t2", "area\ta\t1\t10002\t1\t2", 4
    yield "column edge", "area\ta\t1\t2\t10000\t10001", "area\ta\t1\t2\t0\t10001", 4
    yield "area order", "area\ta\t1\t2\t1\t2", "area\ta\t1\t2\t2\t2", 5
    yield "negative count", "extra\tc\t10000\t0", "extra\tc\t10001\t0", 4
    yield "positive count", "extra\tr\t0\t10000", "extra\tr\t0\t10001", 4
    yield "item", "item\tc\t29999", "item\tc\t30000", 4
    yield "item below", "item\tc\t0", "item\tc\t-1", 4
    yield "line above", place_line("line\t-\t32767"), place_line("line\t-\t32768"), 4
    yield "line below", place_line("line\t-\t-32768"), place_line("line\t-\t-32769"), 4
    yield "index above", place_line("named\tx\t32767"), place_line("named\tx\t32768"), 4
    yield "index below", place_line("named\tx\t-32768"), place_line("named\tx\t-32769"), 4
    yield "span", place_line("span\t-\t65535"), place_line("span\t-\t65536"), 4
    yield "span below", place_line("span\t-\t0"), place_line("span\t-\t-1"), 4
    yield "span of a cell's columns", cell_line("span\t-\t32"), cell_line("span\t-\t33"), 4
    yield "span of a cell's columns below", cell_line("span\t-\t1"), cell_line("span\t-\t0"), 4
    yield "span of a cell's rows", cell_line(rows_end="span\t-\t32"), cell_line(rows_end="span\t-\t33"), 4
    yield "named span of a cell", cell_line("nspan\tx\t65535"), cell_line("nspan\tx\t65536"), 4
    yield "named span of a cell below", cell_line(rows_end="nspan\tx\t0"), cell_line(rows_end="nspan\tx\t-1"), 4
    yield "line of a cell", cell_line("line\t-\t32767"), cell_line("line\t-\t32768"), 4
    yield "named span", place_line("nspan\tx\t65535", "line\t-\t1"), place_line("nspan\tx\t65536", "line\t-\t1"), 4
    yield "wrapping at 32 bits", "item\tc\t1", "item\tc\t4294967297", 4
    yield "wrapping at 64 bits", "item\tc\t2", "item\tc\t18446744073709551618", 4
    yield "name length", "name\tc\t" + "n" * 32, "name\tc\t" + "n" * 33, 2
    yield "name codes below", "name\tc\t!", "name\tc\t ", 2
    yield "name codes above", "name\tc\t~", "name\tc\t\x7f", 2


# As many areas as there may be, one below the other.
COLUMN_OF_AREAS = [f"area\t{number}\t{number + 1}\t{number + 2}\t1\t2" for number in range(64)]


def open_and_closed():
    """Counts of several lines: (name, lines that meet the limit, the one more, its number)."""
    track, size = f"track\tc\t{TRACK}", TRACK
    yield "components", [track] * 64, track, 8
    yield "components by a repeat", [track] * 64, "repeat\tc\t1", 8
    yield "spares", [f"spare\tr\t{size}"] * 64, f"spare\tr\t{size}", 8
    yield "areas", COLUMN_OF_AREAS, "area\tx\t65\t66\t1\t2", 8
    yield "placements", [place_line("auto\t-\t0")] * 256, place_line("auto\t-\t0"), 8
    yield "cells", [track] + [cell_line()] * 256, cell_line(), 8
    yield "cells and placements", [track] + [cell_line(), place_line("auto\t-\t0")] * 128, cell_line(), 8
    yield "placements and cells", [track] + [place_line("auto\t-\t0")] * 255 + [cell_line()], place_line("auto\t-\t0"), 8


def limit_sheets():
    """(name, lines, refusal or None)."""
    for name, met, passed, number in just_met_and_passed():
        # A name counts beside a track alone.
        yield f"{name} met", [met] + [f"track\tc\t{TRACK}"] * met.startswith("name"), None
        yield f"{name} passed", [passed], (number, 1)
    for name, met, more, number in open_and_closed():
        yield f"{name} met", met, None
        yield f"{name} passed", met + [more], (number, len(met) + 1)
    track = f"track\tc\t{TRACK}"
    yield "tracks in a repeat met", ["repeat\tc\t2"] + [track] * 32 + ["end\tc"], None
    yield "tracks in a repeat passed", ["repeat\tc\t2"] + [track] * 33 + ["end\tc"], (8, 34)
    yield "repeat count met", ["repeat\tc\t65535", "end\tc"], None
    yield "repeat count passed", ["repeat\tc\t65536", "end\tc"], (4, 1)
    # 64 times 64 names, and one more.
    many = lambda axis: [f"repeat\t{axis}\t64"] + [f"name\t{axis}\tx"] * 64 + [f"track\t{axis}\t{TRACK}", f"end\t{axis}"]
    yield "entries met", many("r"), None
    yield "entries passed", many("r") + ["name\tr\tx"], (8, 69)
    yield "entries of an invalid template", many("r") + ["name\tr\tx", "repeat\tr\t1", "end\tr"], None
    yield "explicit count met", ["repeat\tr\t10000", f"track\tr\t{TRACK}", "end\tr"], None
    yield "explicit count passed", ["repeat\tr\t10001", f"track\tr\t{TRACK}", "end\tr"], (4, 4)
    yield "explicit count of an invalid template", ["repeat\tr\t10001", f"track\tr\t{TRACK}", "end\tr", "repeat\tr\t0", f"track\tr\t{TRACK}", "end\tr"], None
    yield "both passed", ["repeat\tr\t10001", f"track\tr\t{TRACK}", "end\tr"] + many("c") + ["name\tc\tx"], (4, 72)
    yield "open and passed", ["repeat\tr\t10001", f"track\tr\t{TRACK}", "end\tr", "repeat\tc\tfill"], (1, 5)
    # Nine bytes a line, and the rest in the name of an area.
    yield "sheet length met", ["area\t" + "n" * 3 + "\t1\t2\t1\t2"] + ["item\tc\t0"] * 3639, None
    yield "sheet length passed", ["area\t" + "n" * 4 + "\t1\t2\t1\t2"] + ["item\tc\t0"] * 3639, (1, 0)
    # No room for the automatic repeat: it is written no times, and the name after it lies one line further on.
    yield "tracks before the repeat met", ["repeat\tr\t10000", f"track\tr\t{ZERO_TRACK}", "end\tr", "repeat\tr\tfill", f"track\tr\t{ZERO_TRACK}", "end\tr",
                                           "name\tr\tx", "place\tr\tnamed\tx\t1\tauto\t-\t0"], None
    yield "empty sheet", [], None
    yield "empty line", [""], (1, 1)
    yield "all counts met", ["extra\tc\t10000\t10000", "extra\tr\t10000\t10000", "repeat\tc\t10000", track, "end\tc", "item\tc\t29999"], None


def drawn(*edges):
    """Areas a, b, .. with these edges: row start, row end, column start, column end."""
    return [f"area\t{name}\t" + "\t".join(area.split()) for name, area in zip("abcd", edges)]


def shared_sheets():
    """Areas that touch or share a cell: (name, lines, refusal or None, its pair (earlier, later))."""
    yield "side by side", drawn("1 2 1 2", "1 2 2 3"), None, (0, 0)
    yield "one below the other", drawn("2 3 1 2", "1 2 1 2"), None, (0, 0)
    yield "touching at a corner", drawn("1 2 1 2", "2 3 2 3"), None, (0, 0)
    yield "only a row in common", drawn("1 3 1 2", "2 4 2 3"), None, (0, 0)
    yield "only a column in common", drawn("1 2 1 3", "2 3 2 4"), None, (0, 0)
    yield "touching on all sides", drawn("1 2 1 3", "1 3 3 4", "3 4 2 4", "2 4 1 2"), None, (0, 0)
    yield "one cell in common", drawn("1 3 1 3", "2 4 2 4"), (12, 2), (1, 2)
    yield "one cell in common, the other way", drawn("2 4 1 3", "1 3 2 4"), (12, 2), (1, 2)
    yield "equal", drawn("1 2 1 2", "1 2 1 2"), (12, 2), (1, 2)
    yield "one inside another", drawn("1 5 1 5", "2 3 2 3"), (12, 2), (1, 2)
    yield "one around another", drawn("2 3 2 3", "1 5 1 5"), (12, 2), (1, 2)
    yield "a cross", drawn("2 3 1 4", "1 4 2 3"), (12, 2), (1, 2)
    yield "the furthest cell", drawn("10000 10001 1 10001", "1 10001 10000 10001"), (12, 2), (1, 2)
    yield "the first of two", drawn("1 2 1 3", "2 3 1 2", "1 2 2 4"), (12, 3), (1, 3)
    yield "the second of two", drawn("2 3 1 2", "1 2 1 3", "1 2 2 4"), (12, 3), (2, 3)
    yield "both of two", drawn("1 2 1 2", "1 2 2 3", "1 2 1 3"), (12, 3), (1, 3)
    # Area 3 shares a cell with area 2, and area 4, which comes after it, with area 1.
    yield "several pairs", drawn("1 2 1 2", "2 3 1 2", "2 4 1 2", "1 2 1 3"), (12, 3), (2, 3)
    yield "after an axis line", [axis_line("42c80000")] + drawn("1 2 1 2", "1 2 1 2"), (12, 3), (1, 2)
    yield "5 beside it", drawn("1 5 1 5", "3 3 2 4"), (5, 2), (0, 0)
    yield "6 beside it", drawn("1 2 1 2") + drawn("1 2 1 2"), (6, 2), (0, 0)
    yield "7 beside it", drawn("1 2 1 2") + ["item\tc\t0", "area\tb\t1\t2\t1\t2"], (7, 3), (0, 0)
    yield "8 beside it", COLUMN_OF_AREAS + ["area\tx\t64\t66\t1\t2"], (12, 65), (64, 65)
    yield "8 beside 6", COLUMN_OF_AREAS + ["area\t0\t1\t2\t1\t2"], (6, 65), (0, 0)
    yield "a fault on the line before", drawn("1 2 1 2") + ["", "area\tb\t1\t2\t1\t2"], (1, 2), (0, 0)
    yield "a fault on the line after", drawn("1 2 1 2", "1 2 1 2") + [""], (12, 2), (1, 2)
    yield "too many tracks after it", drawn("1 2 1 2", "1 2 1 2") + ["repeat\tr\t10001", f"track\tr\t{TRACK}", "end\tr"], (12, 2), (1, 2)
    yield "named in placements", drawn("1 2 1 3", "1 3 2 4") + [f"track\tc\t{TRACK}", place_line("named\ta\t0", "named\tb\t0"),
                                                             place_line("named\tb\t0", "named\ta\t0")], (12, 2), (1, 2)


def rows(*pictured):
    """Rows of a picture, their words parted by spaces."""
    return ["row\t" + "\t".join(words.split(" ")) for words in pictured]


def picture_sheets():
    """Pictures, good ones and each way to be none: (name, lines, refusal or None, lines that the answer has to hold)."""
    sized = lambda columns, rows: [f"size\tc\t0\t{columns}", f"size\tr\t0\t{rows}"]
    edges_of = lambda name: [f"place\t{letter}\tnamed\t{name}\t0\tnamed\t{name}\t0" for letter in "cr"]
    at = lambda *lines: [f"place\t{letter}\tline\t{start}\tline\t{end}" for letter, start, end in zip("cr", lines[::2], lines[1::2])]
    yield "a picture", rows("a a b", "a a .") + edges_of("a") + edges_of("b"), None, sized(3, 2) + at(1, 3, 1, 3) + at(3, 4, 1, 2)
    yield "the same by areas", ["area\ta\t1\t3\t1\t3", "area\tb\t1\t2\t3\t4"] + edges_of("a") + edges_of("b"), None, sized(3, 2) + at(1, 3, 1, 3) + at(3, 4, 1, 2)
    yield "one cell", rows("a") + edges_of("a"), None, sized(1, 1) + at(1, 2, 1, 2)
    yield "one name in all cells", rows("a a", "a a", "a a") + edges_of("a"), None, sized(2, 3) + at(1, 3, 1, 4)
    yield "around an empty cell", rows("b b a", "d . a", "d c c") + edges_of("a") + edges_of("b") + edges_of("c") + edges_of("d"), None, \
        sized(3, 3) + at(3, 4, 1, 3) + at(1, 3, 1, 2) + at(2, 4, 3, 4) + at(1, 2, 2, 4)
    yield "dots alone", rows(". ...", ".. .") + [place_line("line\t-\t-1")], None, sized(2, 2) + ["place\tc\tline\t-1\tauto\t0"]
    yield "rows and columns of dots at the end", rows("a . .", ". . .", ". . .") + edges_of("a"), None, sized(3, 3) + at(1, 2, 1, 2)
    yield "dots of many bytes", rows("." * 32 + " a", "." * 33 + " a", "." * 400 + " ."), None, sized(2, 3)
    yield "names with dots", rows("a. ..a", "a.b .-.") + edges_of("..a"), None, sized(2, 2) + at(2, 3, 1, 2)
    yield "a name of 32 bytes", rows("n" * 32 + " .") + edges_of("n" * 32), None, sized(2, 1) + at(1, 2, 1, 2)
    yield "a template wider than the picture", rows("a") + [f"track\tc\t{TRACK}"] * 3, None, sized(3, 1)
    yield "a picture wider than the template", rows("a . .") + [f"track\tc\tlen\t3f800000\tlen\t3f800000"], None, \
        sized(3, 1) + ["1\ttrack\tn\tlen\t3f800000\tlen\t3f800000\tt", f"5\ttrack\tn\t{TRACK}\tg"]
    yield "after axis lines", [axis_line("42c80000")] + rows("a b"), None, sized(2, 1)
    yield "an L shape", rows("a a", "a ."), (14, 2), []
    yield "an L shape, the other way", rows("a b", "a a", "b b"), (14, 3), []
    yield "a corner missing", rows("a a a", "a a a", "a a ."), (14, 3), []
    yield "a hole", rows("a a a", "a . a", "a a a"), (14, 3), []
    yield "a gap of rows", rows("a", ".", "a"), (14, 3), []
    yield "a gap of columns", rows("a . a"), (14, 1), []
    yield "a second run", rows("a . a", "a a a"), (14, 2), []
    yield "columns moved", rows("a a .", ". a a"), (14, 2), []
    yield "columns added", rows("a .", "a a"), (14, 2), []
    yield "corners alone", rows("a b", "b a"), (14, 2), []
    yield "broken in the first of many rows", rows("a . a", "b b b", ". . .", "c c c"), (14, 4), []
    yield "broken before the rest", rows("a . a") + ["name\tc\tx", "row\ta\ta\ta"], (14, 1), []
    yield "broken before a line of no form", rows("a . a") + ["junk"], (14, 1), []
    yield "broken around a line of no form", rows("a . a") + ["junk"] + rows("a a a"), (1, 2), []
    yield "broken around an axis line", rows("a . a") + [axis_line()] + rows("a a a"), (7, 2), []
    yield "broken around a row without words", rows("a . a") + ["row"] + rows("a a a"), (1, 2), []
    yield "broken before an area", rows("a . a") + ["area\tb\t1\t2\t1\t2"] + rows("a a a"), (14, 1), []
    yield "broken before an area of its name", rows("a . a") + ["area\ta\t1\t2\t1\t2"], (14, 1), []
    yield "broken by the last row", rows("a a", "b b", "a a"), (14, 3), []
    yield "good before the rest, broken after", rows("a") + ["item\tc\t0"] + rows(".", "a"), (7, 3), []
    yield "a row shorter", rows("a b", "a"), (13, 2), []
    yield "a row longer", rows("a", "a b"), (13, 2), []
    yield "the first of two unequal rows", rows("a b", "a b", "c", "d e f"), (13, 3), []
    yield "unequal and broken", rows("a . a", "a"), (13, 2), []
    yield "unequal before the last row", rows("a . a", "a", "a . a"), (13, 2), []
    yield "unequal and a bad word", rows("a b", "a") + ["row\t" + "n" * 33], (13, 2), []
    yield "a bad word and unequal", rows("a b") + ["row\t" + "n" * 33], (2, 2), []
    yield "unequal and late", rows("a b") + ["item\tc\t0", "row\ta"], (7, 3), []
    yield "no words", ["row"], (1, 1), []
    yield "an empty word", ["row\t"], (2, 1), []
    yield "an empty last word", ["row\ta\t"], (2, 1), []
    yield "an empty word between", ["row\ta\t\tb"], (2, 1), []
    yield "a word of 33 bytes", rows("n" * 33), (2, 1), []
    yield "a space in a word", ["row\ta b"], (2, 1), []
    yield "10,000 words", ["row" + "\t." * 9999 + "\ta"] + [place_line("named\ta\t0", "named\ta\t0")], None, sized(10000, 1) + ["place\tc\tline\t10000\tline\t10001"]
    yield "10,001 words", ["row" + "\t." * 10001], (4, 1), []
    yield "10,001 words and a bad one", ["row" + "\t." * 10000 + "\t"], (2, 1), []
    yield "10,001 words after a row", rows("a") + ["row" + "\t." * 10001], (4, 2), []
    yield "5,000 rows", rows("a") * 5000 + ["place\tr\tnamed\ta\t0\tnamed\ta\t0"], None, sized(1, 5000) + ["place\tr\tline\t1\tline\t5001"]
    names = [f"n{number}" for number in range(64)]
    yield "64 names", rows(" ".join(names)), None, sized(64, 1)
    yield "65 names", rows(" ".join(names + ["more"])), (8, 1), []
    yield "a 65th name in a later row", rows(" ".join(names), " ".join(names), " ".join(names[:-1] + ["more"]), " ".join(names)), (8, 3), []
    yield "a 65th name and unequal", rows(" ".join(names), "more"), (8, 2), []
    yield "a 65th name and late", rows(" ".join(names)) + ["item\tc\t0", "row\tmore"], (7, 3), []
    yield "a row after an area", ["area\ta\t1\t2\t1\t2", "row\tb"], (7, 2), []
    yield "a row of the area's name after it", ["area\ta\t1\t2\t1\t2", "row\ta"], (7, 2), []
    yield "an area after a row", rows("a") + ["area\tb\t5\t6\t5\t6"], (7, 2), []
    yield "an area over a row", rows("a") + ["area\tb\t1\t2\t1\t2"], (7, 2), []
    yield "an area after a row by its name", rows("a") + ["area\ta\t5\t6\t5\t6"], (6, 2), []
    yield "a row after the rest", ["item\tc\t0", "row\ta"], (7, 2), []
    yield "an axis line after a row", rows("a") + [axis_line()], (7, 2), []
    yield "an axis line again after a row", [axis_line()] + rows("a") + [axis_line()], (6, 3), []
    yield "broken and too many tracks", rows("a . a") + ["repeat\tr\t10001", f"track\tr\t{TRACK}", "end\tr"], (14, 1), []
    yield "a picture and too many tracks", rows("a") + ["repeat\tr\t10001", f"track\tr\t{TRACK}", "end\tr"], (4, 5), []
    yield "an invalid template beside a picture", rows("a b") + ["repeat\tc\t0", f"track\tc\t{TRACK}", "end\tc"], None, sized(2, 1)


def limit_calls():
    """Entry calls on an empty sheet, each with its number."""
    return [(("c", 1, b"x"), 0), (("c", 0, b"x"), 4), (("r", 20000, b"x"), 0), (("r", 20001, b"x"), 4), (("c", 4294967295, b"x"), 4),
            (("c", 1, b"n" * 32), 0), (("c", 1, b"n" * 33), 2), (("c", 1, b""), 2), (("c", 1, b"!"), 0), (("c", 1, b" "), 2),
            (("c", 1, b"~"), 0), (("c", 1, b"\x7f"), 2), (("c", 0, b"\x80"), 2), (("r", 1, b"a\tb"), 2)]
