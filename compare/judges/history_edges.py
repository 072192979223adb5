"""Histories with the answers that document 02's words (Req 14) give, written by hand: sheets, the bytes of the history, and acts with their answers.

Of the whole answer of a panel the lines are given that have to stand in it."""
from acts import NO_AXIS
from cell_edges import cell, columns

LONG = 4000
AUTO_SIZE = "auto\t00000000\tauto\t00000000"
TRACK = f"track\tc\t{AUTO_SIZE}"
ROW_TRACK = f"track\tr\t{AUTO_SIZE}"
WIDE = "track\tc\tlen\t42480000\tlen\t42480000"  # 50 pixels
AREA = "area\ta\t1\t2\t2\t4"
SHORT = [("lend", 32767, 32768), ("lend", 32768, 32767), ("lend", 0, 0)]
FULL = ("lend", 32768, 32768)
TOP = 4294967295  # the furthest step that a recorded act has


# Acts, each with its answer.

def edit(text, answer):
    return ("edit", text if isinstance(text, bytes) else text.encode()), answer


def enter(letter, line, name, answer):
    return ("enter", letter, line, name if isinstance(name, bytes) else name.encode()), answer


def recall(step, answer):
    return ("recall", step), answer


def show(*lines):
    """The panel has these lines among its answers."""
    return ("show",), list(lines)


def cut(*lines):
    """The same of a panel with many records."""
    return ("cut",), list(lines)


def silent(*act):
    return act, []


def at(step, last=None):
    """The step after a call, and the last one."""
    return [f"step\t{step}\t{step if last is None else last}"]


def refused(number, line=0, pair=None):
    return [f"refused\t{number}\t{line}"] + ([f"pair\t{pair[0]}\t{pair[1]}"] if pair else [])


def lines(size, *texts):
    """The bytes of a history: its lines, and what lies past them as it was."""
    held = "".join(text + "\n" for text in texts)
    return ("lines",), (held + "Z" * (size - len(held))).split("\n")


# Answers of panels.

def placed(start, end="auto\t0", letter="c"):
    return f"place\t{letter}\tline\t{start}\t{end}"


def size(letter, repetitions, explicit):
    return f"size\t{letter}\t{repetitions}\t{explicit}"


def named(letter, line, *names):
    return "\t".join(["names", letter, str(line), *names])


# Panels.

# x on line 1 of one column, and a placement on the second line of x, which is counted on past the end.
SECOND_X = ["name\tc\tx", TRACK, "place\tc\tnamed\tx\t2\tauto\t-\t0"]
ENTER_X = "enter\tc\t2\tx"
# As many columns of 50 as fit into 120, each after a name.
FILLED = ["axis\tc\t42f00000\tmax\tlen\t00000000", "repeat\tc\tfill", "name\tc\tx", WIDE, "end\tc", "place\tc\tnamed\tx\t2\tauto\t-\t0"]


def steps():
    """An edit of each kind, the lines of the history, and recalls."""
    texts = [ENTER_X, AREA, TRACK, "place\tr\tline\t-\t1\tnamed\ta\t0"]
    yield "an edit of each kind", SECOND_X, LONG, [
        show(size("c", 0, 1), size("r", 0, 0), placed(3)), lines(LONG),
        edit(texts[0], at(1)), show(size("c", 0, 1), placed(2), named("c", 2, "x")),
        edit(texts[1], at(2)), show(size("c", 0, 3), size("r", 0, 1), placed(2)),
        edit(texts[2], at(3)), show(size("c", 0, 3), placed(2)),
        edit(texts[3], at(4)), show(placed(2), "place\tr\tline\t1\tline\t2"),
        lines(LONG, *[f"{number}\t{text}" for number, text in enumerate(texts, start=1)])]
    yield "recalls", SECOND_X, LONG, [
        recall(0, at(0)), recall(1, refused(17)), edit(ENTER_X, at(1)), edit("enter\tc\t1\ty", at(2)), edit("place\tc\tnamed\ty\t1\tauto\t-\t0", at(3)),
        recall(0, at(0, 3)), show(placed(3), size("c", 0, 1)), recall(3, at(3, 3)), show(placed(2), placed(1)), recall(2, at(2, 3)), show(placed(2), named("c", 1, "x", "y")),
        recall(4, refused(17)), recall(TOP, refused(17)), recall(2, at(2, 3)), recall(1, at(1, 3)), show(placed(2), named("c", 1, "x")),
        lines(LONG, f"1\t{ENTER_X}", "2\tenter\tc\t1\ty", "3\tplace\tc\tnamed\ty\t1\tauto\t-\t0"), recall(3, at(3, 3)), show(placed(2), placed(1))]
    yield "an edit after a recall", SECOND_X, 60, [
        edit(ENTER_X, at(1)), edit("enter\tc\t1\ty", at(2)), edit("enter\tc\t2\tz", at(3)), recall(1, at(1, 3)), edit("enter\tr\t1\tw", at(2)), recall(3, refused(17)),
        (("lines",), [f"1\t{ENTER_X}", "2\tenter\tr\t1\tw", "3\tenter\tc\t2\tz", "ZZZZZZZZZZZZZZZZZZ"]), recall(1, at(1, 2)), recall(2, at(2)), show(placed(2))]
    yield "a refused edit drops none", SECOND_X, LONG, [
        edit(ENTER_X, at(1)), edit("enter\tc\t1\ty", at(2)), recall(0, at(0, 2)), edit("enter\tc\t1\ty\t", refused(1)), edit("area\ta\t2\t2\t1\t2", refused(5)),
        enter("c", 0, "y", refused(4)), recall(2, at(2, 2)), show(placed(2), named("c", 1, "x", "y"))]
    yield "a name by a call and by its line", SECOND_X, 40, [
        enter("c", 2, "x", at(1)), show(placed(2)), recall(0, at(0, 1)), edit(ENTER_X, at(1)), show(placed(2)), enter("r", 20000, "-end", at(2)),
        lines(40, f"1\t{ENTER_X}", "2\tenter\tr\t20000\t-end")]


def bytes_of_lines():
    """Histories that just have room, or lack one byte."""
    first = len(f"1\t{ENTER_X}\n")
    yield "exactly full", SECOND_X, first, [edit(ENTER_X, at(1)), lines(first, f"1\t{ENTER_X}"), edit(ENTER_X, refused(16)), show(placed(2)), recall(0, at(0, 1)),
                                            show(placed(3)), edit("enter\tr\t1\ty", at(1)), lines(first, "1\tenter\tr\t1\ty")]
    yield "one byte short", SECOND_X, first - 1, [edit(ENTER_X, refused(16)), show(placed(3)), lines(first - 1), enter("c", 2, "x", refused(16)), recall(0, at(0)), recall(1, refused(17))]
    yield "no bytes", SECOND_X, 0, [edit(ENTER_X, refused(16)), recall(0, at(0)), lines(0)]
    yield "bytes of lines that are dropped", SECOND_X, 3 * first, [
        edit(ENTER_X, at(1)), edit(ENTER_X, at(2)), edit(ENTER_X, at(3)), edit(ENTER_X, refused(16)), recall(1, at(1, 3)),
        edit("place\tc\tline\t-\t1\tauto\t-\t0", at(2)), show(placed(2), placed(1)), recall(3, refused(17)), recall(1, at(1, 2)),
        edit("place\tc\tline\t-\t1\tnamed\tx\t1000", refused(16)), recall(2, at(2)), show(placed(1))]
    ten = [edit("enter\tc\t1\ty", at(number)) for number in range(1, 10)]
    room = 9 * len("1\tenter\tc\t1\ty\n") + len("10\tenter\tc\t1\ty\n")
    yield "a number of two digits", SECOND_X, room - 1, [*ten, edit("enter\tc\t1\ty", refused(16)), edit("enter\tc\t1\t", refused(2)), recall(9, at(9))]
    yield "a number of two digits that fits", SECOND_X, room, [*ten, edit("enter\tc\t1\ty", at(10)), recall(10, at(10)), recall(3, at(3, 10)), edit("enter\tc\t2\tx", at(4)), show(placed(2))]


def orders():
    """Each row of the table, without room in the history and with a short store: the lowest number comes first, then 10, then 16."""
    sheet = ["area\tb\t1\t2\t1\t2", *SECOND_X]
    faults = [("nothing", refused(1)), ("area\t\t1\t2\t1\t2", refused(2)), ("track\tc\tlen\t80000000\tauto\t00000000", refused(3)), ("area\ta\t0\t2\t1\t2", refused(4)),
              ("area\ta\t2\t1\t1\t2", refused(5)), ("area\tb\t5\t6\t5\t6", refused(6)), ("area\ta\t1\t2\t1\t3", refused(12, 0, (1, 2))), ("enter\tc\t1\t", refused(2)),
              ("enter\tc\t0\tx", refused(4)), ("area\tb\t2\t1\t1\t2", refused(5)), ("area\tb\t1\t2\t1\t2", refused(6)), ("area\t\t2\t1\t1\t2", refused(2)),
              ("place\tc\tnamed\t\t40000\tauto\t-\t0", refused(2)), ("area\ta\t1\t10002\t1\t2", refused(4))]
    yield "refusals before 16", sheet, 3, [edit(text, answer) for text, answer in faults] + [edit(ENTER_X, refused(16)), lines(3)]
    yield "refusals before 10", sheet, 3, [silent(*SHORT[0])] + [edit(text, answer) for text, answer in faults] \
        + [row for short in SHORT for row in (silent(*short), edit(ENTER_X, refused(10)), enter("r", 2, "x", refused(10)), recall(0, refused(10)), recall(1, refused(10)))] \
        + [silent(*FULL), edit(ENTER_X, refused(16)), recall(1, refused(17)), recall(0, at(0))]
    components = ["name\tc\tx"] + [TRACK] * 64
    yield "64 components", components, 3, [edit(TRACK, refused(8)), edit("track\tc\tfr\t00000000\tauto\t00000000", refused(1)), edit(ROW_TRACK, refused(16))]
    yield "256 placements", ["place\tc\tauto\t-\t0\tauto\t-\t0"] * 256, 3, [
        edit("place\tc\tauto\t-\t0\tauto\t-\t0", refused(8)), edit("place\tc\tspan\t-\t65536\tauto\t-\t0", refused(4)), edit(TRACK, refused(16))]
    tiles = [f"area\t{number}\t{number + 1}\t{number + 2}\t1\t2" for number in range(64)]
    yield "64 areas", tiles, 3, [edit("area\tmore\t1\t2\t2\t3", refused(8)), edit("area\tmore\t64\t65\t1\t2", refused(12, 0, (64, 65))), edit("area\t5\t1\t2\t2\t3", refused(6))]
    yield "an axis that is none", SECOND_X, LONG, [
        enter(NO_AXIS, 1, "x", refused(4)), enter(NO_AXIS, 0, "", refused(2)), enter("c", 0, "", refused(2)), enter("c", 20001, "n" * 33, refused(2)),
        enter("r", 20001, "x", refused(4)), enter("r", 0, "x", refused(4)), enter("c", 4294967295, "x", refused(4)), enter("c", 2, "a b", refused(2)),
        enter("c", 2, "a\tb", refused(2)), enter("c", 2, "a\n", refused(2)), enter("c", 2, b"\x80", refused(2)), enter("c", 2, "n" * 32, at(1))]


def others():
    """Texts that are no edits."""
    words = ["", "\t", "\n", "area", "enter", "name\tc\ty", "row\ta", "item\tc\t0", "end\tc", "repeat\tc\tfill", "spare\tc\t" + AUTO_SIZE, "extra\tc\t1\t1",
             "axis\tr\t-\tmax\tlen\t00000000", cell(), "Place\tc\tline\t-\t1\tauto\t-\t0", " " + ENTER_X, ENTER_X + " ", "1\t" + ENTER_X, ENTER_X + "\n", "\n" + ENTER_X,
             ENTER_X + "\n" + ENTER_X, TRACK + "\n", TRACK + "\t", TRACK + "\r", "enter\tc\t2", "enter\tc\t2\tx\t", "enter\tx\t2\tx", "enter\t\t2\tx", "enter\tC\t2\tx", "enter\tc\t02\tx",
             "enter\tc\t+2\tx", "enter\tc\t-0\tx", "enter\tc\t\tx", "enter\tc\t2 \tx", "enter\tc\t2.0\tx", "enter\tx\t0\t", "enter\tc\t02\t", "place\tc\tline\t-\t01\tauto\t-\t0"]
    # The byte 32 belongs to a name's range no more than a carriage return does.
    answers = {ENTER_X + " ": refused(2)}
    yield "texts of no edit", SECOND_X, LONG, [edit(word, answers.get(word, refused(1))) for word in words] + [edit(b"\xff\xfe", refused(1)), lines(LONG), show(placed(3))]
    numbers = [("-1", 4), ("0", 4), ("20001", 4), ("65537", 4), ("4294967297", 4), ("18446744073709551617", 4), ("9" * 60, 4), ("-" + "9" * 60, 4)]
    yield "lines of entries", SECOND_X, LONG, [edit(f"enter\tc\t{text}\tx", refused(number)) for text, number in numbers] + [
        edit("enter\tc\t99999999999\t", refused(2)), edit("enter\tc\t20000\ty", at(1)), edit("enter\tc\t1\t" + "n" * 33, refused(2)), edit(b"enter\tc\t1\t\xc3\xa9", refused(2))]


def area_edits():
    """An area is last of the areas: it is not late, and raises both counts."""
    yield "an area after everything", ["area\tb\t1\t2\t1\t2", *SECOND_X, "place\tr\tnamed\ta\t0\tnamed\ta\t0", "place\tc\tnamed\ta\t0\tnamed\ta\t0"], LONG, [
        show(size("c", 0, 1), size("r", 0, 1), "place\tr\tline\t3\tline\t3", placed(3, "line\t3")), edit("area\ta\t2\t5\t2\t4", at(1)),
        show(size("c", 0, 3), size("r", 0, 4), "place\tr\tline\t2\tline\t5", placed(2, "line\t4"), placed(5)), recall(0, at(0, 1)),
        show(size("c", 0, 1), size("r", 0, 1), placed(3))]
    yield "areas that touch and share", ["area\ta\t1\t3\t1\t3", "area\tb\t1\t3\t5\t7"], LONG, [
        edit("area\tc\t2\t4\t2\t6", refused(12, 0, (1, 3))), edit("area\tc\t2\t3\t6\t7", refused(12, 0, (2, 3))), edit("area\tc\t1\t3\t3\t5", at(1)),
        edit("area\td\t1\t2\t3\t4", refused(12, 0, (3, 4))), edit("area\tc\t5\t6\t1\t2", refused(6)), edit("area\td\t3\t4\t1\t9", at(2)), recall(1, at(1, 2)),
        edit("area\te\t2\t4\t8\t9", at(2)), edit("area\tf\t2\t4\t8\t9", refused(12, 0, (4, 5))), show(size("c", 0, 8), size("r", 0, 3))]
    picture = ["row\ta\ta\t.", "row\ta\ta\tb", *SECOND_X, "place\tr\tnamed\td\t0\tnamed\td\t0"]
    yield "an area beside a picture", picture, LONG, [
        show(size("c", 0, 3), size("r", 0, 2)), edit("area\ta\t5\t6\t5\t6", refused(6)), edit("area\td\t1\t2\t2\t4", refused(12, 0, (1, 3))),
        edit("area\td\t2\t3\t3\t4", refused(12, 0, (2, 3))), edit("area\td\t1\t2\t3\t4", at(1)), show(size("c", 0, 3), size("r", 0, 2), "place\tr\tline\t1\tline\t2"),
        edit("area\te\t3\t5\t1\t2", at(2)), show(size("c", 0, 3), size("r", 0, 4)), edit("area\td\t7\t8\t1\t2", refused(6)), edit("row\td\td\td", refused(1)), recall(0, at(0, 2)),
        show(size("c", 0, 3), size("r", 0, 2))]
    yield "the furthest area", SECOND_X, LONG, [edit("area\ta\t1\t2\t1\t10001", at(1)), cut(size("c", 0, 10000), size("r", 0, 1)), edit("area\tb\t10000\t10001\t1\t2", at(2)),
                                               edit("area\tc\t1\t10002\t1\t2", refused(4)), recall(0, at(0, 2)), show(size("c", 0, 1), size("r", 0, 0), placed(3))]


def track_edits():
    """A track is last of its template: sizes and names are counted anew, and direct entries come after the names."""
    yield "a repeat that is written out fewer times", FILLED, LONG, [
        show(size("c", 2, 2), placed(2), named("c", 2, "x"), named("c", 3)), edit("enter\tc\t2\ty", at(1)), edit("enter\tc\t1\ty", at(2)),
        show(named("c", 1, "x", "y"), named("c", 2, "x", "y")), edit(WIDE, at(3)),
        show(size("c", 1, 2), placed(4), named("c", 1, "x", "y"), named("c", 2, "y")), edit(ROW_TRACK, at(4)), recall(2, at(2, 4)),
        show(size("c", 2, 2), placed(2), named("c", 2, "x", "y")), recall(3, at(3, 4)), show(size("c", 1, 2), placed(4), named("c", 2, "y"))]
    yield "an entry between two tracks", ["name\tc\tx", TRACK, "name\tc\tz", "place\tc\tnamed\tx\t-1\tauto\t-\t0"], LONG, [
        edit("enter\tc\t2\tx", at(1)), edit(TRACK, at(2)), edit("enter\tc\t3\ty", at(3)), edit(TRACK, at(4)), edit("enter\tc\t2\tw", at(5)),
        show(size("c", 0, 3), placed(2), named("c", 1, "x"), named("c", 2, "z", "x", "w"), named("c", 3, "y"), named("c", 4))]
    yield "a template that becomes invalid", FILLED, LONG, [
        edit("enter\tc\t1\ty", at(1)), edit(f"track\tc\t{AUTO_SIZE}", at(2)), show(size("c", 0, 0), placed(3), named("c", 1, "y")), edit(WIDE, at(3)), show(size("c", 0, 0)),
        recall(0, at(0, 3)), show(size("c", 2, 2), placed(2), named("c", 1, "x"))]
    yield "a template that becomes valid", ["name\tc\tx", "name\tc\tx", "name\tc\ty", "place\tc\tnamed\ty\t1\tauto\t-\t0"], LONG, [
        show(size("c", 0, 0), placed(2)), edit("enter\tc\t2\ty", at(1)), show(placed(2), named("c", 1)), edit(TRACK, at(2)),
        show(size("c", 0, 1), placed(1), named("c", 1, "x", "y"), named("c", 2, "y")), recall(1, at(1, 2)), show(size("c", 0, 0), placed(2))]
    yield "10,000 tracks", ["repeat\tc\t9999", TRACK, "end\tc"], LONG, [edit(TRACK, at(1)), edit(TRACK, refused(4)), edit("track\tr\t" + AUTO_SIZE, at(2)), edit(TRACK, refused(4))]
    yield "tracks beside those that areas make", ["area\ta\t1\t2\t1\t3", ROW_TRACK], LONG, [
        edit(ROW_TRACK, at(1)), show(size("c", 0, 2), size("r", 0, 2)), edit(TRACK, at(2)), show(size("c", 0, 2), size("r", 0, 2)),
        edit(TRACK, at(3)), edit(TRACK, at(4)), show(size("c", 0, 3), size("r", 0, 2))]


def entries(count, letter="c", name=b"y"):
    """The lines of so many direct entries on line 1."""
    return b"".join(b"%d\tenter\t%s\t1\t%s\n" % (number, letter.encode(), name) for number in range(1, count + 1))


def put(held, count):
    """The lines of so many steps, which calls would have written."""
    return [silent("put", 0, held), silent("steps", count, count)]


def full_entries():
    """Direct entries beside the names that a track makes count: 4,096 in all, else 8; and all bytes of a store."""
    names = ["name\tc\tz"] * 3596
    yield "4,096 entries with a track", names, 9000, [*put(entries(500), 500), edit(TRACK, at(501)), edit(TRACK, at(502)), enter("c", 1, "x", refused(8)), enter("r", 1, "x", at(503))]
    yield "4,097 entries with a track", names, 9000, [*put(entries(501), 501), edit(TRACK, refused(8)), edit(ROW_TRACK, at(502)), edit(TRACK, refused(8)), recall(500, at(500, 502)), edit(TRACK, at(501))]
    long = "m" * 32
    yield "the bytes of a store", [f"name\tr\t{long}"] * 800, 12000, [
        *put(entries(223, "r", long.encode()), 223), enter("r", 1, long, at(224)), enter("r", 1, "x", refused(8)), enter("r", 0, "x", refused(4)), enter("c", 1, "x", at(225)),
        recall(223, at(223, 225)), enter("r", 1, "m" * 31, at(224)), enter("r", 1, "xx", refused(8)), enter("r", 1, "x", at(225)), enter("r", 1, "x", refused(8))]


def forged():
    """What no call wrote: 17, and nothing changes."""
    good = f"1\t{ENTER_X}\n".encode()
    yield "no lines", SECOND_X, 40, [silent("steps", 1, 1), edit(ENTER_X, refused(17)), edit("nothing", refused(17)), recall(0, at(0, 1)), recall(1, refused(17)), edit(ENTER_X, at(1))]
    for what, data in (("another number", f"2\t{ENTER_X}\n"), ("a zero before it", f"01\t{ENTER_X}\n"), ("no number", f"{ENTER_X}\n"), ("no tab", f"1{ENTER_X}\n"), ("no line feed", f"1\t{ENTER_X}"),
                       ("a line of no edit", "1\tname\tc\ty\n"), ("an empty line", "1\t\n"), ("a refused line", "1\tarea\ta\t2\t1\t1\t2\n"), ("an entry of no form", "1\tenter\tc\t2\n")):
        yield f"a line that no edit wrote: {what}", SECOND_X, len(data) + (0 if what == "no line feed" else 9), [
            silent("put", 0, data.encode()), silent("steps", 1, 1), edit(ENTER_X, refused(17)), edit("nothing", refused(17)), recall(1, refused(17)), recall(0, at(0, 1))]
    yield "a refused entry", SECOND_X, LONG, [silent("put", 0, b"1\tenter\tc\t0\tx\n"), silent("steps", 1, 1), recall(1, refused(17)), recall(0, at(0, 1))]
    yield "a good line that is put there", SECOND_X, LONG, [silent("put", 0, good), silent("steps", 0, 1), recall(1, at(1)), show(placed(2)), edit(TRACK, at(2)), recall(2, at(2)), recall(3, refused(17))]
    yield "a last step that is too far", SECOND_X, LONG, [edit(ENTER_X, at(1)), silent("steps", 1, TOP), recall(2, refused(17)), recall(TOP, refused(17)), recall(1, at(1, TOP)), edit(TRACK, at(2)), recall(3, refused(17))]
    yield "a step that is too far", SECOND_X, LONG, [edit(ENTER_X, at(1)), silent("steps", 2, 1), edit(ENTER_X, refused(17)), recall(1, at(1)), edit(ENTER_X, at(2))]
    yield "17 after 10", SECOND_X, 40, [silent("steps", 1, 1), silent(*SHORT[2]), recall(1, refused(10)), recall(2, refused(10)), edit(ENTER_X, refused(17)), silent(*FULL), recall(2, refused(17))]


def refused_sheets():
    """A sheet that is refused has no panel to edit: its lines are told; what comes after the last line is looked at with the edits."""
    yield "a line of no form", [*SECOND_X, "nothing"], LONG, [edit(ENTER_X, refused(1, 4)), edit("nothing", refused(1, 4)), recall(0, refused(1, 4)), recall(1, refused(1, 4)), enter("c", 2, "x", refused(1, 4)),
                                                              enter("c", 2, "", refused(2)), enter(NO_AXIS, 2, "x", refused(4)), silent(*SHORT[2]), edit(ENTER_X, refused(1, 4)), recall(0, refused(1, 4))]
    yield "areas that share a cell", ["area\ta\t1\t2\t1\t3", "area\tb\t1\t2\t2\t4"], LONG, [edit(ENTER_X, refused(12, 2, (1, 2))), recall(0, refused(12, 2, (1, 2)))]
    yield "a broken picture", ["row\ta\tb\ta", TRACK], LONG, [edit(ENTER_X, refused(14, 1)), recall(0, refused(14, 1))]
    yield "an open repeat", ["repeat\tc\t2", TRACK], LONG, [edit(ENTER_X, refused(1)), edit(TRACK, refused(1))]
    yield "too many tracks", ["repeat\tc\t10001", TRACK, "end\tc"], LONG, [edit("enter\tc\t1\tx", refused(4)), edit(ROW_TRACK, refused(4))]


def whole_sheets():
    """The longest sheet, an empty one, and cells."""
    longest = ["item\tr\t0"] * 3632 + ["item\tr\t10"] * 8
    yield "a sheet of the longest length", longest, LONG, [edit("enter\tc\t1\t" + "x" * 32, at(1)), edit(TRACK, at(2)), edit(AREA, at(3)), show(size("c", 0, 3), size("r", 0, 1)), recall(3, at(3))]
    yield "a sheet that is too long", [*longest, "item\tr\t0"], LONG, [edit(TRACK, refused(1)), recall(0, refused(1))]
    yield "an empty sheet", [], LONG, [edit("place\tc\tnamed\tx\t1\tauto\t-\t0", at(1)), show(placed(2)), edit("enter\tc\t1\tx", at(2)), show(placed(1)), edit(AREA, at(3)), show(placed(1), size("c", 0, 3))]
    yield "cells", [*columns(2), cell("x 1"), cell()], LONG, [
        show("refused\t15\t3"), edit("enter\tc\t2\tx", at(1)), show("cell\t2\t3\t1\t2", "cell\t1\t2\t2\t3"), edit(TRACK, at(2)),
        show("cell\t2\t3\t1\t2", "cell\t3\t4\t1\t2"), recall(0, at(0, 2)), edit("area\ta\t1\t2\t1\t2", at(1)), show("refused\t15\t3"), recall(1, at(1))]


def edges():
    """(name, lines, bytes of the history, acts with their answers)."""
    for part in (steps, bytes_of_lines, orders, others, area_edits, track_edits, full_entries, forged, refused_sheets, whole_sheets):
        yield from part()
