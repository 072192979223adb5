"""Questions of the least resize with the answers that document 02's words give, written by hand: sheets, and rows with their answers."""
from edges import TRACK
from questions import resize

ONE, THREE, TEN, HUNDRED = (f"len\t{bits}\tlen\t{bits}" for bits in ("3f800000", "40400000", "41200000", "42c80000"))
TENTH, FIFTH, HALF, WHOLE = (f"pct\t{bits}\tpct\t{bits}" for bits in ("3dcccccd", "3e4ccccd", "3f000000", "3f800000"))
INNER = {0: "00000000", 5: "40a00000", 8: "41000000", 9: "41100000", 10: "41200000", 23: "41b80000", 25: "41c80000", 50: "42480000", 100: "42c80000", 1280: "44a00000",
         10001: "461c4400", 20000: "469c4000", 65535: "477fff00"}
RESIZE = resize("c")


def axis(inner, rule="max", gap="len\t00000000"):
    return [f"axis\tc\t{INNER.get(inner, inner)}\t{rule}\t{gap}"]


def repeat(count, *tracks):
    return [f"repeat\tc\t{count}", *[f"track\tc\t{track}" for track in tracks], "end\tc"]


def fill(*tracks):
    return repeat("fill", *tracks)


def single(track):
    return [f"track\tc\t{track}"]


def found(size):
    return [(RESIZE, f"resize\t{size}")]


NONE = [(RESIZE, "resize\t-")]
REFUSED = [(RESIZE, "refused\t3\t0")]


def length_edges():
    yield "wider before narrower", axis(10) + fill(ONE), found(11)
    yield "wider before narrower, further off", axis(10) + fill(THREE), found(12)
    yield "narrower where it is nearer", axis(9) + fill(THREE), found(8)
    yield "from size 0", axis(0) + fill(TEN), found(20)
    yield "below one repetition", axis(5) + fill(TEN), found(20)
    yield "below one repetition, rule min", axis(5, "min") + fill(TEN), found(11)
    yield "rule min", axis(25, "min") + fill(TEN), found(20)
    yield "with a gap", axis(25, "max", "len\t40a00000") + fill(TEN), found(24)
    yield "just size 65,535", axis(100) + fill("len\t46ffff00\tlen\t46ffff00"), found(65535)
    yield "no size", axis(100) + fill("len\t477fff00\tlen\t477fff00"), NONE
    yield "from size 65,535", axis(65535) + fill(TEN), found(65529)
    yield "thin tracks", axis(10) + fill("len\t00000000\tlen\t00000000"), found(11)
    yield "a repeat that fits", axis(10) + repeat("fit", THREE), found(12)
    yield "beside a single and a counted repeat", axis(50) + single(TEN) + repeat(1, TEN) + fill(TEN), found(49)
    yield "by a minimum", axis(10) + fill("len\t40400000\tfr\t3f800000"), found(12)
    yield "by a maximum", axis(10) + fill("auto\t00000000\tlen\t40400000"), found(12)
    yield "by a maximum raised to its minimum", axis(10) + fill("len\t40400000\tlen\t3f800000"), found(12)
    # At 10,002 there are 3,334 repetitions, 10,002 tracks, for which a sheet of that size is refused.
    yield "a size at which the panel would be refused", axis(10001) + fill(ONE, ONE, ONE), found(10002)
    yield "held at the most repetitions", axis(20000) + fill(ONE), found(9999)
    yield "no room for a repetition", axis(20000) + repeat(10000, ONE) + fill(ONE), NONE


def percentage_edges():
    # 20 %: 5 repetitions at 8, 4 at 9 and 5 at 10; of rule min 10 %: 11 at 23 and 10 at 24.
    yield "the count falls as the size grows", axis(8) + fill(FIFTH), found(9)
    yield "the count falls and rises again", axis(9) + fill(FIFTH), found(10)
    yield "the count falls, rule min", axis(23, "min") + fill(TENTH), found(24)
    # Half of every size but 1 fits twice.
    yield "percentages of the tried size", axis(100) + fill(HALF), found(1)
    yield "percentages that fit once", axis(100) + fill(WHOLE), NONE
    # A fifth of it outside: at 1,249 there is room for 9 repetitions, from 1,250 to 1,374 for 10.
    yield "a percentage outside the repeat", axis(1280) + single(FIFTH) + fill(HUNDRED), found(1249)
    yield "a percentage raised to a length", axis(10) + fill("len\t40400000\tpct\t3dcccccd"), found(12)


def refused_edges():
    yield "no axis record", fill(TEN), REFUSED
    yield "no inner size", axis("-") + fill(TEN), REFUSED
    yield "an inner size of 0.5", axis("3f000000") + fill(TEN), REFUSED
    yield "an inner size of 10.5", axis("41280000") + fill(TEN), REFUSED
    yield "an inner size just above 10", axis("41200001") + fill(TEN), REFUSED
    yield "a percent gap", axis(10, "max", "pct\t3dcccccd") + fill(TEN), REFUSED
    yield "a percent gap of 0", axis(10, "max", "pct\t00000000") + fill(TEN), REFUSED
    yield "no automatic repeat", axis(10) + single(TEN) + repeat(3, TEN), REFUSED
    yield "no template", axis(10), REFUSED
    yield "names without a track", axis(10) + ["name\tc\tx"], REFUSED
    yield "two automatic repeats", axis(10) + fill(ONE) + fill(ONE), REFUSED
    yield "a track of no fixed kind beside it", axis(10) + single(TRACK) + fill(ONE), REFUSED
    yield "a track of no fixed kind in it", axis(10) + fill(ONE, TRACK), REFUSED
    yield "a repeat of no tracks beside it", axis(10) + repeat(2) + fill(ONE), REFUSED
    yield "a repeat of no tracks", axis(10) + fill(), REFUSED
    yield "a written count of 0 beside it", axis(10) + repeat(0, ONE) + fill(ONE), REFUSED
    yield "the other axis", axis(10) + fill(ONE), [(resize("r"), "refused\t3\t0"), (RESIZE, "resize\t11")]
    yield "the size of the other axis", [f"axis\tr\t{INNER[10]}\tmax\tlen\t00000000"] + fill(ONE), REFUSED


def edges():
    """(name, lines, rows with their answers)."""
    yield from length_edges()
    yield from percentage_edges()
    yield from refused_edges()
