"""Blocks that are wrong on purpose: right ones of the lists with one change each. A replay that passes over a part doesn't find
the one that is wrong there."""
import build
import lists

PURPOSE = "wrong on purpose: "

# What is wrong, the list and the case that it is made from, the expected line that is changed, and what stands in its place.
CHANGES = [
    ("repetitions", "cases", "worked", "size\tc\t2\t2", ["size\tc\t3\t2"]),
    ("an explicit count", "cases", "M8", "size\tr\t0\t0", ["size\tr\t0\t1"]),
    ("a record's kind", "cases", "M8", "2\tgutter\tn\tlen\t00000000\tlen\t00000000\t-", ["2\ttrack\tn\tlen\t00000000\tlen\t00000000\t-"]),
    ("a collapsed record", "cases", "M8", "6\tgutter\ty\tlen\t00000000\tlen\t00000000\t-", ["6\tgutter\tn\tlen\t00000000\tlen\t00000000\t-"]),
    ("a record's minimum", "cases", "M8", "3\ttrack\tn\tlen\t42c80000\tlen\t42c80000\tt", ["3\ttrack\tn\tlen\t42c80001\tlen\t42c80000\tt"]),
    ("a record's maximum", "cases", "M8", "5\ttrack\tn\tlen\t42c80000\tlen\t42c80000\tt", ["5\ttrack\tn\tlen\t42c80000\tfr\t42c80000\tt"]),
    ("a record's source", "cases", "M12", "1\ttrack\ty\tlen\t00000000\tlen\t00000000\ta", ["1\ttrack\ty\tlen\t00000000\tlen\t00000000\tt"]),
    ("a record too few", "cases", "M8", "6\tgutter\ty\tlen\t00000000\tlen\t00000000\t-", []),
    ("a start", "cases", "d12-enter-past-end", "place\tc\tline\t-5\tauto\t0", ["place\tc\tline\t5\tauto\t0"]),
    ("an end", "cases", "M10", "place\tc\tline\t0\tspan\t1", ["place\tc\tline\t0\tline\t1"]),
    ("a placement's axis", "large", "large 2", "place\tr\tline\t10001\tline\t10001", ["place\tc\tline\t10001\tline\t10001"]),
    ("a line name", "cases", "M8", "names\tc\t3\tx", ["names\tc\t3\ty"]),
    ("a name too many", "cases", "M8", "names\tc\t2", ["names\tc\t2\tx"]),
    ("a named line", "large", "large 2", "names\tc\t10001\ta", ["names\tc\t10000\ta"]),
    ("a list of names too few", "cases", "M8", "names\tc\t4", []),
    ("a list of names too many", "cases", "M8", "names\tc\t4", ["names\tc\t4", "names\tc\t5"]),
    ("a refusal's number", "cases", "d1-over-counted", "refused\t4\t4", ["refused\t8\t4"]),
    ("a refusal's line", "cases", "d1-over-counted", "refused\t4\t4", ["refused\t4\t3"]),
    ("the earlier area of a pair", "areas", "the first of two", "pair\t1\t3", ["pair\t2\t3"]),
    ("the later area of a pair", "areas", "the first of two", "pair\t1\t3", ["pair\t1\t2"]),
    ("a pair that is missing", "areas", "equal", "pair\t1\t2", []),
    ("a displayed pair", "areas", "several pairs, displayed", "pair\t2\t3", ["pair\t1\t4"]),
    ("a displayed size", "areas", "equal, displayed", "size\tc\t0\t1", ["size\tc\t0\t2"]),
    ("the width of a picture", "pictures", "dots alone", "size\tc\t0\t2", ["size\tc\t0\t0"]),
    ("the rows of a picture", "pictures", "rows and columns of dots at the end", "size\tr\t0\t3", ["size\tr\t0\t1"]),
    ("an edge of a picture's area", "pictures", "a picture", "place\tc\tline\t1\tline\t3", ["place\tc\tline\t1\tline\t2"]),
    ("the number of a row of unequal width", "pictures", "a row shorter", "refused\t13\t2", ["refused\t14\t2"]),
    ("the line of a broken picture", "pictures", "broken in the first of many rows", "refused\t14\t4", ["refused\t14\t1"]),
    ("a cell's column", "cells", "one after the other", "cell\t2\t3\t1\t2", ["cell\t1\t2\t1\t2"]),
    ("a cell's row", "cells", "one after the other", "cell\t1\t2\t2\t3", ["cell\t1\t2\t1\t2"]),
    ("a cell too few", "cells", "one after the other", "cell\t1\t2\t2\t3", []),
    ("the line of a cell without a place", "cells", "a refused one after others", "refused\t15\t4", ["refused\t15\t3"]),
    ("a cell placed densely", "cells", "holes, asked", "cells\t1\t3\t1\t2\t1\t3\t2\t3\t3\t4\t1\t2", ["cells\t1\t3\t1\t2\t1\t3\t2\t3\t3\t4\t2\t3"]),
    ("a cell placed sparsely", "cells", "holes, asked", "cells\t1\t3\t1\t2\t1\t3\t2\t3\t3\t4\t2\t3", ["cells\t1\t3\t1\t2\t1\t3\t2\t3\t3\t4\t1\t2"]),
    ("a cell's settled columns", "cells", "swapped ends, asked", "settled\tline\t4\tline\t2\tn\tn", ["settled\tline\t2\tline\t4\tn\tn"]),
    ("how many placements a trial has", "trials", "a name once more", "tried\t1\t0", ["tried\t0\t0"]),
    ("a placement that is tried", "trials", "a name once more", "place\tc\tline\t3\tauto\t0\tn\tn", ["place\tc\tline\t5\tauto\t0\tn\tn"]),
    ("a mark that is tried", "trials", "a line that is held", "place\tc\tline\t10001\tauto\t0\ty\tn", ["place\tc\tline\t10001\tauto\t0\tn\tn"]),
    ("a cell's columns that are tried", "trials", "a cell by a name", "settled\tc\tline\t3\tauto\t0\tn\tn", ["place\tc\tline\t3\tauto\t0\tn\tn"]),
    ("a cell that is tried densely", "trials", "a cell by a name", "cell\t1\t2\t1\t2", ["cell\t1\t2\t2\t3"]),
    ("the line of a tried cell without a place", "trials", "a cell by a name", "refused\t15\t5", ["refused\t15\t0"]),
    ("a trial that is refused", "trials", "all entries", "refused\t8\t0", ["refused\t10\t0"]),
    ("the step of an edit", "histories", "an edit of each kind", "step\t4\t4", ["step\t3\t4"]),
    ("the last step after a recall", "histories", "recalls", "step\t0\t3", ["step\t0\t0"]),
    ("a recall of a step above the last", "histories", "recalls", "refused\t17\t0", ["step\t1\t1"]),
    ("an edit that does not fit", "histories", "one byte short", "refused\t16\t0", ["step\t1\t1"]),
    ("an edit that just fits", "histories", "exactly full", "step\t1\t1", ["refused\t16\t0"]),
    ("the line of a refused edit", "histories", "texts of no edit", "refused\t1\t0", ["refused\t1\t4"]),
    ("the pair of an edit", "histories", "areas that touch and share", "pair\t1\t3", ["pair\t1\t2"]),
    ("a placement of a step", "histories", "an edit of each kind", "place\tc\tline\t2\tauto\t0", ["place\tc\tline\t3\tauto\t0"]),
    ("a record of a step", "histories", "an edit of each kind", "1\ttrack\tn\tauto\t00000000\tauto\t00000000\tt", ["1\ttrack\tn\tauto\t00000000\tauto\t00000000\tg"]),
    ("a name of a step", "histories", "a repeat that is written out fewer times", "names\tc\t1\tx\ty", ["names\tc\t1\ty\tx"]),
    ("a panel that is cut", "histories", "the furthest area", "size\tc\t0\t10000", ["size\tc\t0\t9999"]),
    ("a line of a history", "histories", "an edit after a recall", "2\tenter\tr\t1\tw", ["2\tenter\tc\t1\ty"]),
    ("the bytes past a history's lines", "histories", "an edit after a recall", "ZZZZZZZZZZZZZZZZZZ", ["ZZZZZZZZZZZZZZZZZ\0"]),
    ("a nearest line", "cursor", "nearest", "nearest\t3", ["nearest\t4"]),
    ("a placement that is listed", "cursor", "around", "around\t6\t10", ["around\t6"]),
    ("a placement that is not listed", "cursor", "within", "within\t0\t1\t2", ["within\t0\t1\t2\t3"]),
    ("a size", "resize", "wider before narrower", "resize\t11", ["resize\t9"]),
    ("a size where none differs", "resize", "no size", "resize\t-", ["resize\t65535"]),
    ("no size where one differs", "resize", "from size 0", "resize\t20", ["resize\t-"]),
    ("a resize that is refused", "resize", "a percent gap", "refused\t3\t0", ["refused\t4\t0"]),
    ("a question that is refused", "cursor", "no definite size: a gutter", "refused\t11\t0", ["refused\t10\t0"]),
    ("an answer too few", "cursor", "nearest on a grid with no track", "around", []),
    ("a refusal for a short store", "short", "short good 1", "refused\t10\t0", ["refused\t10\t1"]),
    ("an entry call that is refused", "entries", "general 28", "refused\t2\t0", ["entered\t0\t0"]),
    ("an entry call that is accepted", "cases", "d12-enter-past-end", "entered\t0\t0", ["refused\t4\t0"]),
    ("a start's mark", "cases", "marks of lines", "held\tc\ty\tn", ["held\tc\tn\tn"]),
    ("an end's mark", "cases", "marks of lines", "held\tc\tn\ty", ["held\tc\tn\tn"]),
    ("the axis of marks", "cases", "marks of names", "held\tc\tn\ty", ["held\tr\tn\ty"]),
    ("marks that are missing", "cases", "marks of names", "held\tc\tn\ty", []),
]

# The same for conversions: what is wrong, the row, and what stands in its place.
CHANGED_ROWS = [
    ("a conversion's refusal", "0\t0\t9\t0\t0\tn", "0\t0\t4\t0\t0\tn"),
    ("an origin-zero line", "3\t-5\t0\t-1\t-5\tn", "3\t-5\t0\t-2\t-5\tn"),
    ("a line back", "3\t-5\t0\t-1\t-5\tn", "3\t-5\t0\t-1\t-4\tn"),
    ("a conversion's mark that is missing", "3\t32767\t0\t10000\t10001\ty", "3\t32767\t0\t10000\t10001\tn"),
    ("a conversion's mark at the limit", "3\t10001\t0\t10000\t10001\tn", "3\t10001\t0\t10000\t10001\ty"),
    ("a line outside that is converted", "3\t-\t4\t10001\t0\t4\t0\t4\t0", "3\t-\t0\t10001\t0\t4\t0\t4\t0"),
    ("the tracks that a line outside implies", "3\t-\t4\t10001\t0\t4\t0\t4\t0", "3\t-\t4\t10001\t0\t4\t0\t0\t9998"),
]


def changed(lines, old, new):
    """The lines with one of them changed."""
    place = lines.index(old)
    return lines[:place] + new + lines[place + 1:]


def changed_block(what, name, case, old, new):
    block = next((block for block in lists.blocks(lists.read_list(name)) if block.name == case), None)
    if not block or old not in block.lines:
        raise build.CannotCompare(f"not recorded: {name}/{case} has no line {old!r}")
    return block.written(PURPOSE + what, changed(block.lines, old, new))


def changed_row(what, old, new):
    if old not in lists.read_list("lines").decode().splitlines():
        raise build.CannotCompare(f"not recorded: no conversion is {old!r}")
    return f"lines 1 {PURPOSE}{what}\n{new}\n".encode()


def made():
    """All of them."""
    return [changed_block(*change) for change in CHANGES] + [changed_row(*change) for change in CHANGED_ROWS]
