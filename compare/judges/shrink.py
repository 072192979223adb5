"""Shrinks a sheet and its calls to a small one that still differs."""

SIMPLE_FIELDS = [b"a", b"x", b"0", b"1", b"2", b"-", b"00000000", b"3f800000", b"42c80000", b"len", b"c", b"line", b"auto", b"fill"]


def drop(items, fails):
    """The items without those whose loss leaves the failure, in ever smaller runs."""
    size = max(1, len(items) // 2)
    while True:
        place = 0
        while place < len(items):
            fewer = items[:place] + items[place + size:]
            if fails(fewer):
                items = fewer
            else:
                place += size
        if size == 1:
            return items
        size = max(1, size // 2)


def drop_pairs(lines, fails):
    """Also drop two lines at once, as `repeat` and its `end`."""
    place = 0
    while place < len(lines):
        for other in range(place + 1, len(lines)):
            fewer = lines[:place] + lines[place + 1:other] + lines[other + 1:]
            if fails(fewer):
                lines = fewer
                break
        else:
            place += 1
    return lines


def simplify(lines, fails):
    """Replace fields by simple ones."""
    for place in range(len(lines)):
        for at in range(1, lines[place].count(b"\t") + 1):
            lines = simplify_field(lines, place, at, fails)
    return lines


def simplify_field(lines, place, at, fails):
    for simple in SIMPLE_FIELDS:
        fields = lines[place].split(b"\t")
        if fields[at] == simple:
            return lines
        fields[at] = simple
        other = lines[:place] + [b"\t".join(fields)] + lines[place + 1:]
        if fails(other):
            return other
    return lines


def rename(lines, calls, differs):
    """Give each name a simple one, everywhere at once."""
    fields = {field for line in lines for field in line.split(b"\t")[1:]} | {name for _, _, name in calls}
    for field in sorted(fields, key=len, reverse=True):
        for suffix in (b"-start", b"-end"):
            field = field.removesuffix(suffix)
        for simple in (b"a", b"x"):
            if field == simple or len(field) < 1 or field in b"-start-end":
                break
            other_lines = [rename_in(line, field, simple) for line in lines]
            other_calls = [(letter, number, name.replace(field, simple)) for letter, number, name in calls]
            if (other_lines, other_calls) != (lines, calls) and differs(sheet_of(other_lines), other_calls):
                lines, calls = other_lines, other_calls
                break
    return lines, calls


def rename_in(line, name, simple):
    """The fields that begin with the name, with the simple one instead."""
    word, *fields = line.split(b"\t")
    return b"\t".join([word] + [simple + field[len(name):] if field.startswith(name) else field for field in fields])


def sheet_of(lines):
    return b"".join(line + b"\n" for line in lines)


def shrink(sheet, calls, differs):
    """The smaller sheet and calls; `differs(sheet, calls)` says whether the failure is still there."""
    if not sheet.endswith(b"\n") or len(sheet) > 32768:
        return sheet, calls
    lines = sheet.split(b"\n")[:-1]
    calls = list(calls)
    while True:
        before = (lines, calls)
        calls = drop(calls, lambda fewer: differs(sheet_of(lines), fewer)) if calls else calls
        fails = lambda fewer: differs(sheet_of(fewer), calls)
        lines = drop(lines, fails) if lines else lines
        if len(lines) <= 60:
            lines, calls = rename(drop_pairs(lines, fails), calls, differs)
            lines = simplify(lines, fails)
        if (lines, calls) == before:
            return sheet_of(lines), calls
