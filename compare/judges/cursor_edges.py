"""Questions of the cursor with the answers that document 02's words give, written by hand: sheets, and rows with their answers."""
from edges import TRACK
from questions import FULL, MARKS, around, nearest, within

TEN = "len\t41200000\tlen\t41200000"
AXIS_GAP_2 = "axis\tc\t-\tmax\tlen\t40000000"
AT = {0: 0, 2: 0x40000000, 5: 0x40a00000, 6: 0x40c00000, 10: 0x41200000, 11: 0x41300000, 12: 0x41400000, 15: 0x41700000, 20: 0x41a00000, 24: 0x41c00000,
      25: 0x41c80000, 29: 0x41e80000, 30: 0x41f00000, 34: 0x42080000, 40: 0x42200000, 50: 0x42480000, 51: 0x424c0000, 100: 0x42c80000, 65535: 0x477fff00}
SHORT_STORES = [(MARKS, 32767, 32768), (MARKS, 32768, 32767), (MARKS, 0, 0)]


def track(sizes=TEN):
    return f"track\tc\t{sizes}"


def place(start, end, letter="c"):
    ends = [f"line\t-\t{end}" if isinstance(end, int) else end for end in (start, end)]
    return f"place\t{letter}\t{ends[0]}\t{ends[1]}"


def near(at, line):
    return nearest("c", AT[at]), f"nearest\t{line}"


def hits(row, *numbers):
    return row, "\t".join([row.split("\t")[0], *map(str, numbers)])


def refused(row, number):
    return row, f"refused\t{number}\t0"


def inside(low, high, *numbers):
    return hits(within("c", AT[low], AT[high]), *numbers)


def beside(line, *numbers):
    return hits(around("c", line), *numbers)


# Three tracks of 10 with gaps of 2: lines 1 to 4 lie at 0, 12, 24 and 34.
THREE = [AXIS_GAP_2, track(), track(), track()]
PLACED = [place(1, 3), place(3, 1), place(2, 2), place(4, 4), place(0, 2), place(1, "auto\t-\t0"), place(-1, -4), place(1, 5), place("span\t-\t2", 3),
          place(1, 2, "r"), place(4, -4), place(0, 0)]
TWO_PERCENT_GAP = ["axis\tc\t-\tmax\tpct\t3dcccccd", track(), track()]


def nearest_edges():
    yield "nearest", THREE, [near(0, 1), near(6, 1), (nearest("c", AT[6] + 1), "nearest\t2"), (nearest("c", AT[6] - 1), "nearest\t1"), near(11, 2), near(12, 2),
                             near(29, 3), near(30, 4), near(34, 4), near(65535, 4)]
    # Lines -4, -3, 1, 2 and 3 lie at 0, 10, 20, 30 and 40.
    yield "nearest among implicit lines", [track(), f"spare\tc\t{TEN}", "extra\tc\t2\t1"], \
        [near(0, -4), near(5, -4), near(10, -3), near(15, -3), near(20, 1), near(25, 1), near(30, 2), near(40, 3), near(65535, 3)]
    yield "nearest on a grid with no track", [place(1, 1)], [near(0, 1), near(65535, 1), inside(0, 65535), beside(1)]
    fit = ["axis\tc\t43960000\tmax\tlen\t40000000", "repeat\tc\tfit", "track\tc\tlen\t42c80000\tlen\t42c80000", "end\tc"]
    # 100 wide each, with gaps of 2 in 300: two tracks.
    yield "nearest among collapsed tracks", fit, [near(0, 1), near(50, 1), near(65535, 1)]
    yield "nearest beside a collapsed track", fit + ["item\tc\t1"], [near(50, 1), near(51, 3), near(100, 3), near(65535, 3)]
    yield "nearest after a collapsed track at the end", fit + ["item\tc\t0"], [near(50, 1), near(51, 2), near(65535, 2)]
    yield "distances that round alike", [track("len\t35800000\tlen\t35800000")], [near(0, 1), near(65535, 1), (nearest("c", 0x35800000), "nearest\t2")]
    yield "the furthest lines", [f"spare\tc\t{TEN}", "extra\tc\t10000\t10000"], [near(0, -10001), near(65535, -3448)]


def measured_edges():
    yield "a maximum below its minimum", [track("len\t41f00000\tlen\t41200000")], [near(15, 1), near(20, 2)]
    yield "a minimum beside no definite maximum", [track("len\t41f00000\tfr\t3f800000")], [near(15, 1), near(20, 2)]
    yield "a maximum beside no definite minimum", [track("auto\t00000000\tlen\t41f00000")], [near(15, 1), near(20, 2)]
    yield "percentages of the inner size", ["axis\tc\t42c80000\tmax\tpct\t3dcccccd", track("pct\t3e800000\tpct\t3e800000"), track()], \
        [near(12, 1), near(20, 2), near(40, 2), near(29, 2), near(65535, 3)]
    yield "a percentage maximum without an inner size", [track("len\t41f00000\tpct\t3f800000")], [near(15, 1), near(20, 2)]
    # Written as 0.5, taken as 1 while repetitions are counted: lines at 0, 0.5 and 1.
    yield "thin tracks as written", ["axis\tc\t40000000\tmax\tlen\t00000000", "repeat\tc\tfill", track("len\t3f000000\tlen\t3f000000"), "end\tc", place(1, 3)], \
        [(nearest("c", 0x3f000000), "nearest\t2"), (nearest("c", 0x3f800000), "nearest\t3"), hits(within("c", 0, 0x3f800000), 0)]


def indefinite_edges():
    for name, sizes in (("auto", TRACK), ("a fraction", "auto\t00000000\tfr\t3f800000"), ("fit-content", "auto\t00000000\tfitl\t41200000"),
                        ("a percentage without an inner size", "pct\t3f000000\tpct\t3f000000")):
        yield f"no definite size: {name}", [track(), track(sizes), place(1, 2)], \
            [refused(nearest("c", 0), 11), refused(within("c", 0, 0), 11), refused(around("c", 1), 11), (nearest("r", 0), "nearest\t1")]
    yield "no definite size: a gutter", TWO_PERCENT_GAP, [refused(nearest("c", 0), 11), (nearest("r", 0), "nearest\t1")]
    yield "no definite size: gutters that collapse", TWO_PERCENT_GAP[:2], [near(5, 1), near(6, 2)]
    yield "no definite size: a track that collapses", ["repeat\tc\tfit", track("pct\t3f000000\tpct\t3f000000"), "end\tc"], [near(0, 1), near(65535, 1)]
    yield "no definite size: far from the cursor", THREE + ["extra\tc\t0\t1"], [refused(nearest("c", 0), 11)]
    yield "no definite size, after older checks", [track(TRACK)], \
        [refused(nearest("c", 0, 0), 10), refused(nearest("c", 0, 1), 11), refused(nearest("c", 0x80000000, 0), 3), refused(around("c", 0, (0, 0, 0)), 9)] \
        + [refused(around("c", 1, lent), 10) for lent in SHORT_STORES]


def listed_edges():
    yield "within", THREE + PLACED, [inside(0, 24, 0, 1, 2), inside(0, 34, 0, 1, 2, 6, 10), inside(12, 24, 2), inside(12, 34, 2), hits(within("c", AT[12], AT[24] - 1)),
                                     hits(within("c", AT[12] + 1, AT[24])), inside(24, 0), inside(0, 0), inside(12, 12), inside(0, 65535, 0, 1, 2, 6, 10),
                                     hits(within("r", 0, AT[65535]))]
    yield "around", THREE + PLACED, [beside(1), beside(2, 0, 1, 6, 10), beside(3, 6, 10), beside(-2, 6, 10), beside(-3, 0, 1, 6, 10), beside(4), beside(5), beside(-5),
                                     beside(32767), beside(-32768), refused(around("c", 0), 9), hits(around("r", 2))]
    # One track of the template at 20 to 30, two before it and one after.
    yield "lists beside implicit tracks", [track(), f"spare\tc\t{TEN}", "extra\tc\t2\t1", place(-3, 3), place(-4, 1), place(-5, 1), place(3, 3), place(-4, -4), place(2, 2)], \
        [inside(10, 40, 0, 5), inside(0, 20, 1, 4), inside(0, 65535, 0, 1, 4, 5), beside(1, 0), beside(-3, 1), beside(2, 0), beside(-4)]
    # Held, line 32,767 would be the last line of this grid.
    yield "lines that are not held again", ["spare\tc\tlen\t3f800000\tlen\t3f800000", "extra\tc\t0\t10000", place(1, 32767), place(1, 10001), place(1, "named\tx\t32767"), place(1, 10002)], \
        [inside(0, 65535, 1, 2), beside(10000, 1, 2), beside(10001), beside(32767)]
    yield "names in placements", [AXIS_GAP_2, "area\ta\t1\t2\t1\t3", "name\tc\tx", track(), track(), "name\tc\tx", track(), place("named\ta\t0", "named\ta\t0"),
                                  place("named\tx\t1", "named\tx\t2"), place("named\tx\t2", "nspan\tx\t1"), place("nspan\tx\t1", 4)], \
        [inside(0, 24, 0, 1), inside(24, 34, 3), inside(0, 65535, 0, 1, 3)]
    yield "no track, and lists", [place(1, 2), place(1, 1), place(-1, -1)], [inside(0, 65535), beside(1), beside(-1)]
    yield "256 placements", THREE + [place(1, 2)] * 256, [inside(0, 12, *range(256)), beside(2)]
    yield "all on the other axis", THREE + [place(1, 2, "r")] * 3, [inside(0, 65535), hits(within("r", 0, AT[65535]))]


def refused_edges():
    outside = [0x80000000, 0x477fff01, 0x7f800000, 0x7fc00000, 0xbf800000, 0xff800000, 0xffffffff, 0x80000001]
    yield "outside a length's range", THREE + PLACED, [refused(nearest("c", bits), 3) for bits in outside] + [refused(within("c", bits, 0), 3) for bits in outside] \
        + [refused(within("c", 0, bits), 3) for bits in outside]
    yield "short items and stores", THREE + PLACED, [refused(nearest("c", 0, 2), 10), (nearest("c", 0, 3), "nearest\t1"), refused(within("c", 0, 0, (2, 32768, 32768)), 10),
                                                     hits(within("c", 0, AT[12], (3, 32768, 32768))), refused(around("c", 1, (2, 32768, 32768)), 10),
                                                     hits(around("c", 2, (3, 32768, 32768)), 0, 1, 6, 10)] \
        + [refused(row, 10) for lent in SHORT_STORES for row in (within("c", 0, 0, lent), around("c", 1, lent), within("r", 0, 0, lent))]
    yield "3 before 10", THREE, [refused(nearest("c", 0x80000000, 0), 3), refused(within("c", 0x80000000, 0, (0, 0, 0)), 3), refused(within("c", 0, 0x7fc00000, (0, 0, 0)), 3)]
    yield "9 before 10", THREE, [refused(around("c", 0, (0, 0, 0)), 9), refused(around("c", 0, FULL), 9)]


# Areas that share a cell, with a track of 10 in each of their columns, only displayed.
SHARED = ["area\ta\t1\t2\t1\t3", "area\tb\t1\t2\t2\t4", f"spare\tc\t{TEN}", place("named\ta\t0", "named\ta\t0"), place("named\tb\t0", "named\tb\t0")]
SHARED_ROWS = [nearest("c", AT[24]), within("c", 0, AT[20]), around("c", 2), around("c", 3), nearest("r", 0)]


def edges():
    """(name, lines, rows with their answers)."""
    yield from nearest_edges()
    yield from measured_edges()
    yield from indefinite_edges()
    yield from listed_edges()
    yield from refused_edges()
