"""The sheets of docs/DIFFERENCES.md: each with lines that its answer has to hold."""
from edges import TRACK, axis_line, place_line

ZERO = "len\t00000000\tlen\t00000000"
ONE = "len\t3f800000\tlen\t3f800000"
X = "named\tx\t"


def repeat(count, *tracks):
    return [f"repeat\tc\t{count}", *[f"track\tc\t{track}" for track in tracks], "end\tc"]


def placed(*ends):
    """The answers of column placements, by their ends."""
    return ["place\tc\t" + "\t".join(end.split()) for end in ends]


def rust_sheets():
    yield "counted above 10,000", repeat(10001, TRACK), ["refused\t4\t4"]
    yield "filled above 10,000", [axis_line("477fff00")] + repeat("fill", ZERO, ZERO, ZERO), ["refused\t4\t7"]
    yield "filled by length 0", [axis_line("3f800000")] + repeat("fill", ZERO), ["size\tc\t1\t1"]
    yield "areas that overlap", ["area\ta\t1\t2\t1\t3", "area\tb\t1\t2\t2\t4", place_line("named\ta\t0", "named\tb\t0")], ["refused\t12\t2"]
    yield "dots in a picture", ["row\ta\t.", "row\t.\t."], ["size\tc\t0\t2", "size\tr\t0\t2"]
    yield "4,097 entries", ["repeat\tc\t4097", "name\tc\tx", f"track\tc\t{TRACK}", "end\tc"], ["refused\t8\t5"]


def invalid_sheets():
    """Templates that CSS has not: here they count as none, where the Rust uses their singles and names."""
    drawn = ["area\ta\t1\t2\t1\t2"]
    yield "repeated no times", repeat(0, TRACK) + ["name\tc\tx", f"track\tc\t{TRACK}", place_line(X + "-1")], ["size\tc\t0\t0"] + placed("line -2 auto 0")
    yield "filled by no fixed part", drawn + repeat("fill", TRACK) + ["name\tc\tx", place_line(X + "1")], ["size\tc\t0\t1"] + placed("line 3 auto 0")
    yield "filled twice", repeat("fill", ONE) * 2 + ["name\tc\tx", place_line(X + "1")], ["size\tc\t0\t0"] + placed("line 2 auto 0")
    yield "area over no template", drawn + [f"track\tc\t{ONE}"] + repeat("fill", TRACK), ["size\tc\t0\t1", f"1\ttrack\tn\t{TRACK}\tg"]
    yield "names without a track", ["name\tc\tx", place_line(X + "-1")], placed("line -2 auto 0")
    yield "repeat without a track", ["repeat\tc\t2", "name\tc\tx", "end\tc", place_line(X + "-1")], placed("line -2 auto 0")
    yield "bench four", [axis_line("43a00000"), "area\tlevel\t1\t2\t2\t3"] + repeat("fill", "len\t42c80000\tlen\t42c80000") + \
        ["name\tc\toffset", f"track\tc\t{TRACK}", place_line("named\toffset\t1")], ["size\tc\t0\t2"] + placed("line 4 auto 0")


def outside_sheets():
    """Placements outside the third demand's conditions."""
    yield "span back from past the end", [place_line("nspan\tx\t1", "line\t-\t3")], placed("line -2 line 3"), [("c", 2, b"x")]
    yield "index not rising", [place_line(X + "1", X + "2")], placed("line 3 line 2"), [("c", 3, b"x")]
    yield "two named spans", [place_line("nspan\tx\t1", "nspan\ty\t1")], placed("span 1 span 1")
    yield "ends out of order", [place_line("line\t-\t3", "line\t-\t1"), place_line("line\t-\t2", "line\t-\t2")], \
        placed("line 3 line 1", "line 2 line 2")


def worded_sheets():
    """Within the third demand's conditions, by the words of documents 01 and 02."""
    yield "held before a span", ["area\ta\t1\t2\t1\t10001", place_line("nspan\ta-end\t1", "line\t-\t10002")], placed("line -10002 line 10002")
    yield "product above", [axis_line("41300000")] + repeat("fill", "pct\t3dcccccd\tpct\t3dcccccd"), ["size\tc\t9\t9"]
    yield "quotient rounded up", [axis_line("4168d42b")] + repeat("fill", "len\t403a4356\tlen\t403a4356"), ["size\tc\t5\t5"]
    yield "span of 0", [place_line("nspan\tx\t0", "line\t-\t1")], placed("line -2 line 1")
    yield "plain span of 0", [place_line("span\t-\t0", "line\t-\t3")], placed("span 0 line 3")
    yield "words of CSS as names", ["name\tc\tspan", f"track\tc\t{TRACK}", "name\tc\tauto", place_line("named\tspan\t1", "named\tauto\t1")], \
        placed("line 1 line 2")
    yield "minimum beside fit-content", ["track\tc\tlen\t3f800000\tfitl\t3f800000"], ["1\ttrack\tn\tlen\t3f800000\tfitl\t3f800000\tt"]
    yield "name without a number", ["area\ta\t1\t2\t2\t3", place_line(X + "0"), place_line("named\ta\t0", "named\ta\t0")], \
        placed("line 4 auto 0", "line 2 line 3")
    yield "a broken picture", ["row\ta\t.\ta"], ["refused\t14\t1"]
    yield "rows of unequal width", ["row\ta\tb", "row\ta"], ["refused\t13\t2"]
    yield "a dot in a word", ["row\ta.b"], ["size\tc\t0\t1"]
    yield "line 0", [place_line("line\t-\t0"), place_line("line\t-\t0", "nspan\tx\t1")], placed("line 0 auto 0", "line 0 span 1")


def sheets():
    """(name, lines, what the answer has to hold, and entry calls where there are any)."""
    yield from rust_sheets()
    yield from invalid_sheets()
    yield from outside_sheets()
    yield from worded_sheets()
