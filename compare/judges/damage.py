"""Damages good sheets, each damage with the refusal that it is made for."""
import areas
import pictures

BAD_NAMES = [b"", b"x" * 33, b"a b", b"a\x7f", b"\x80", b"a\r", b"\x00", b"\xc3\xa9", b" "]
UNREAD_NUMBERS = ["", "-", "+1", "01", "-0", "00", "1 ", "0x1", "1.0", "-01", "--1", "a", "1e3", "1\r", "1\0", "\xb2"]
LONG_NUMBER = "9" * 40
# Outside every range, but within one where they wrap at 16, 32 or 64 bits.
WRAPPING = [65537, 4294967297, 18446744073709551617]
BAD_LENGTHS = ["80000000", "7fc00000", "7f800000", "ff800000", "bf800000", "477fff01", "80000001", "ffffffff"]
BAD_FRACTIONS = ["80000000", "7fc00000", "41200001", "bf800000", "7f7fffff"]
BAD_KEYWORDS = ["00000001", "80000000", "3f800000"]
UNREAD_SIZES = ["", "0", "0000000", "000000000", "3F800000", "3f80000g", "-", "0x000000"]
AXES = [(1, word) for word in ("x", "", "C", "cr", "0")]


def numbers(low, high):
    """Damages of a whole number with its range."""
    outside = [low - 1, high + 1, low - 1000000, high + 1000000, LONG_NUMBER, "-" + LONG_NUMBER, *WRAPPING]
    return [(1, text) for text in UNREAD_NUMBERS] + [(4, str(number)) for number in outside]


def sizes(kind):
    bad = BAD_KEYWORDS if kind in ("auto", "min", "max") else \
        BAD_FRACTIONS if kind in ("pct", "fitp") else BAD_LENGTHS
    return [(1, text) for text in UNREAD_SIZES] + [(3, text) for text in bad]


def names():
    return [(2, name) for name in BAD_NAMES]


def words(*bad):
    return [(1, word) for word in bad]


def end_damages(kind, spans=(0, 65535)):
    """Damages of the name and number of a placement's end; `spans` is the range of plain ones."""
    name = names() if kind in ("named", "nspan") else words("", "x", "--", "x" * 33)
    if kind in ("line", "named"):
        number = numbers(-32768, 32767)
    elif kind in ("span", "nspan"):
        number = numbers(*(spans if kind == "span" else (0, 65535)))
    else:
        number = words("1", "", "-0", "00", "65536", "-1")
    return [words("Auto", "", "lines", "fit"), name, number]


def track_damages(fields):
    return [words("fr", "fitl", "fitp", "", "px", "LEN"), sizes(fields[2]), words("", "px", "fill"), sizes(fields[4])]


def field_damages(fields):
    """For each field after the first, the damages that it can take."""
    word = fields[0]
    if word == "area":
        return [names()] + [numbers(1, 10001)] * 4
    if word == "axis":
        inner = words("", "--") + [damage for damage in sizes("len") if damage[1] != "-"]
        return [AXES, inner, words("", "most", "fill"), words("", "fr", "auto"), sizes(fields[4])]
    if word == "cell":
        return [damages for at in range(1, 13, 3) for damages in end_damages(fields[at], (1, 32))]
    if word == "row":
        return [names()] * (len(fields) - 1)
    rest = {
        "name": lambda: [names()],
        "track": lambda: track_damages(fields[1:]),
        "spare": lambda: track_damages(fields[1:]),
        "repeat": lambda: [numbers(0, 65535) + words("auto", "Fill", "fit ")],
        "end": lambda: [],
        "extra": lambda: [numbers(0, 10000)] * 2,
        "item": lambda: [numbers(0, 29999)],
        "place": lambda: end_damages(fields[2]) + end_damages(fields[5]),
    }[word]()
    return [AXES] + rest


def to_bytes(field):
    return field if isinstance(field, bytes) else field.encode("latin-1")


def sheet_of(lines):
    return b"".join(to_bytes(line) + b"\n" for line in lines)


def damage_fields(random, line):
    """The line with one to three fields damaged, and the lowest number of these damages."""
    fields = line.split("\t")
    options = field_damages(fields)
    wanted = random.randint(1, 4)
    places = [place for place, damages in enumerate(options) if any(number == wanted for number, _ in damages)]
    chosen = [random.choice(places)] if places else [random.randrange(len(options))]
    if random.random() < 0.3:
        chosen += random.sample(range(len(options)), random.randint(1, min(2, len(options))))
    lowest = {}
    for place in chosen:
        numbers_here = {number for number, _ in options[place]}
        number = wanted if wanted in numbers_here else random.choice(sorted(numbers_here))
        fields[place + 1] = random.choice([field for of, field in options[place] if of == number])
        lowest[place] = number
    return b"\t".join(map(to_bytes, fields)), min(lowest.values())


def with_line(lines, place, line):
    return sheet_of(lines[:place] + [line] + lines[place:])


def damage_one_line(random, lines):
    place = random.randrange(len(lines))
    line, number = damage_fields(random, lines[place])
    return sheet_of(lines[:place] + [line] + lines[place + 1:]), (number, place + 1)


def damage_form(random, lines):
    """A line of no form."""
    place = random.randrange(len(lines))
    line = lines[place]
    bad = random.choice([line + "\t", line + "\tx", "\t" + line, line.rsplit("\t", 1)[0], "", " ", "nothing", "Name\tc\tx",
                         line.upper(), line.replace("\t", " "), "end", "\t\t", line.replace("\t", "\t\t", 1), "size\tc\t0\t0"])
    if bad == line or bad == line.rsplit("\t", 1)[0] == line:
        bad = ""
    if line.startswith("row"):
        bad = pictures.others(random)
    return sheet_of(lines[:place] + [bad] + lines[place + 1:]), (1, place + 1)


def damage_end(random, lines):
    """A last line without a line feed, a lone `end`, a repeat left open or a repeat inside one."""
    letter = random.choice("cr")
    way = random.randrange(5)
    number = len(lines) + 1
    if way == 0:
        return sheet_of(lines)[:-1], (1, len(lines))
    if way == 1:
        return sheet_of(lines) + b"item\tc\t0", (1, number)
    if way == 2:
        return sheet_of(lines + [f"end\t{letter}"]), (1, number)
    if components(lines, letter) >= 64:
        return sheet_of(lines + [f"repeat\t{letter}\t1"]), (8, number)
    if way == 3:
        return sheet_of(lines + [f"repeat\t{letter}\t1"]), (1, number + 1)
    return sheet_of(lines + [f"repeat\t{letter}\t1", f"repeat\t{letter}\t{random.choice(['2', 'fill', '65536'])}"]), (1, number + 1)


def components(lines, letter):
    """The components of an axis."""
    count = 0
    inside = False
    for line in lines:
        fields = line.split("\t")
        if fields[:2] == ["repeat", letter]:
            count, inside = count + 1, True
        elif fields[:2] == ["end", letter]:
            inside = False
        elif fields[:2] == ["track", letter] and not inside:
            count += 1
    return count


def damage_area(random, lines):
    """An area whose start is not below its end."""
    place = sum(line.startswith("axis") for line in lines)
    edges = [random.randint(1, 10001) for _ in range(4)]
    edges[1] = max(1, edges[0] - random.choice([0, 0, 1, 5000])) if random.random() < 0.5 else edges[1]
    if edges[0] < edges[1] and edges[2] < edges[3]:
        edges[3] = edges[2]
    name = random.choice(["q", "zz", "q-start"])
    return with_line(lines, place, "\t".join(["area", name, *map(str, edges)])), (5, place + 1)


def damage_overlap(random, lines):
    """An area that shares a cell with an earlier one."""
    drawn = [place for place, line in enumerate(lines) if line.startswith("area")]
    if not drawn:
        first = sum(line.startswith("axis") for line in lines)
        lines = lines[:first] + ["area\tfirst\t2\t4\t2\t4"] + lines[first:]
        drawn = [first]
    under = random.choice(drawn)
    place = random.randint(under + 1, drawn[-1] + 1)
    return with_line(lines, place, areas.line(random.choice(["q", "zz", "q-start"]), areas.over(random, areas.of_line(lines[under])))), (12, place + 1)


def beside_overlap(random, lines, drawn, later):
    """A sheet with areas of which the one at a place is the first that shares a cell with an earlier one: as it is, or with another
    fault at its line, before it or after it; no calls, and the refusal."""
    first = lines.index(drawn[0])
    place = first + later
    name, *edges = lines[place].split("\t")[1:]
    way = random.randrange(10)
    if way == 0:
        lines[place] = "\t".join(["area", drawn[random.randrange(later)].split("\t")[1], *edges])
        return lines, [], (6, place + 1)
    if way == 1:
        edges[1] = edges[0]
        lines[place] = "\t".join(["area", name, *edges])
        return lines, [], (5, place + 1)
    if way == 2:
        lines[place] = "\t".join(["area", "", *edges])
        return lines, [], (2, place + 1)
    if way == 3:
        # The rest comes before it, so it is late too.
        late = lines[:place] + ["item\tc\t0", lines[place]] + lines[place + 1:]
        return late, [], (7, place + 2)
    if way == 4:
        return lines[:place] + [""] + lines[place:], [], (1, place + 1)
    if way == 5:
        return lines[:place + 1] + [random.choice(["", "item\tc\t30000", drawn[0]])] + lines[place + 1:], [], (12, place + 1)
    return lines, [], (12, place + 1)


# A picture, changed or not, and what stands in it, beside it or after it. Each way answers lines or a sheet, and the refusal.

def is_row(line):
    return line.startswith("row\t")


def part_way(random, lines):
    """The place of a row that is not the first, of the first row, and how many rows there are."""
    first = next(place for place, line in enumerate(lines) if is_row(line))
    count = sum(map(is_row, lines))
    return first, first + random.randint(1, count), count


def of_picture(rows, first, count, otherwise):
    """The refusal by 14 of the first rows of a picture, else the other one."""
    return pictures.refusal(rows[:count], first + 1) or otherwise


def rows_late(random, lines, rows):
    """A record of the rest among the rows: those after it are late."""
    first, place, count = part_way(random, lines)
    late = (7, place + 2) if place - first < count else None
    other = random.choice(["item\tc\t0", "extra\tr\t1\t1", "place\tc\tauto\t-\t0\tauto\t-\t0", "spare\tr\tauto\t00000000\tauto\t00000000"])
    return lines[:place] + [other] + lines[place:], of_picture(rows, first, place - first, late)


def rows_after_a_fault(random, lines, rows):
    """A record of the rest among the rows that has a fault itself: it still ends the picture."""
    first, place, count = part_way(random, lines)
    other, number = random.choice([("item\tc\t30000", 4), ("name\tr\t", 2), ("end\tc", 1), ("extra\tx\t1\t1", 1)])
    return lines[:place] + [other] + lines[place:], of_picture(rows, first, place - first, (number, place + 1))


def area_among_rows(random, lines, rows):
    """An area record among the rows or after them, by another name or by one of theirs."""
    first, place, count = part_way(random, lines)
    drawn = sorted({word for words in rows[:place - first] for word in words if word.strip(".")})
    name, number = random.choice([("late", 7)] + [(name, 6) for name in drawn[:3]])
    other = f"area\t{name}\t1\t2\t1\t2"
    return lines[:place] + [other] + lines[place:], of_picture(rows, first, place - first, (number, place + 1))


def area_before_rows(random, lines, rows):
    first, _, _ = part_way(random, lines)
    return lines[:first] + ["area\tfirst\t1\t2\t1\t2"] + lines[first:], (7, first + 2)


def no_form_among_rows(random, lines, rows):
    """A line of no form, or an axis line, among the rows: it doesn't end the picture, and comes before its last row."""
    first, place, count = part_way(random, lines)
    letters = [letter for letter in "cr" if not any(line.startswith(f"axis\t{letter}") for line in lines)]
    other, number = pictures.others(random), 1
    if random.random() < 0.4:
        letter = random.choice("cr")
        other, number = f"axis\t{letter}\t-\tmax\tlen\t00000000", 7 if letter in letters else 6
    last = place - first == count
    return lines[:place] + [other] + lines[place:], of_picture(rows, first, count, (number, place + 1)) if last else (number, place + 1)


def row_unequal(random, lines, rows):
    """Some rows, the first of them not the first of all, with a word more or a word less, or with a bad word too."""
    first, place, count = part_way(random, lines)
    if place - first == count:
        lines = lines[:place] + [lines[place - 1]] + lines[place:]
    number = 13
    for at in range(place, first + count):
        if at == place or random.random() < 0.3:
            lines[at] = random.choice([lines[at] + "\tmore", lines[at] + "\t.", lines[at] + "\t." * 3, "row" + "\ta" * (len(rows[0]) + 1)])
    if place - first == count:
        lines[place] += "\t."
    elif random.random() < 0.3:
        lines[place] += "\t" + random.choice(pictures.BAD_WORDS)
        number = 2
    return lines, (number, place + 1)


def row_with_a_bad_word(random, lines, rows):
    first, place, count = part_way(random, lines)
    fields = lines[place - 1].split("\t")
    fields[random.randrange(1, len(fields))] = random.choice(pictures.BAD_WORDS)
    return lines[:place - 1] + ["\t".join(fields)] + lines[place:], (2, place)


def row_without_words(random, lines, rows):
    first, place, count = part_way(random, lines)
    last = place - first == count
    word, number = random.choice([("row", 1), ("row\t", 2), ("row\t.\t", 2)])
    refusal = (number, place + 1)
    return lines[:place] + [word] + lines[place:], of_picture(rows, first, count, refusal) if last and number == 1 else refusal


def rows_too_wide(random, lines, rows):
    """A row of more than 10,000 words, now and then with a bad one, or late."""
    wide = "row" + "\t." * (10000 + random.randint(1, 3))
    way = random.randrange(4)
    if way == 0:
        return [wide], (4, 1)
    if way == 1:
        return [wide + "\t"], (2, 1)
    if way == 2:
        return ["item\tc\t0", wide], (4, 2)
    return ["row\t.", wide], (4, 2)


def names_too_many(random, lines, rows):
    crowded, line = pictures.one_name_too_many(random)
    late = random.random() < 0.2
    lines = (["area\tx\t1\t2\t1\t2"] if late else []) + pictures.lines(crowded)
    return lines, (7, 2) if late else (8, line)


def last_row_unended(random, lines, rows):
    """The last row has no line feed: it is no row."""
    first, _, count = part_way(random, lines)
    unended = (1, first + count)
    return sheet_of(lines[:first + count])[:-1], of_picture(rows, first, count - 1, unended) if count > 1 else unended


def followed_by_a_fault(random, lines, rows):
    """A fault after the picture: 14 comes before it."""
    first, _, count = part_way(random, lines)
    place = first + count
    other, number = random.choice([("", 1), ("row", 1), ("item\tc\t30000", 4), ("area\tq\t1\t1\t1\t2", 5), ("name\tc\t", 2)])
    return lines[:place] + [other] + lines[place:], of_picture(rows, first, count, (number, place + 1))


def as_it_is(random, lines, rows):
    first, _, count = part_way(random, lines)
    return lines, of_picture(rows, first, count, None)


BESIDE_PICTURES = [as_it_is] * 12 + [rows_late, rows_late, rows_after_a_fault, area_among_rows, area_among_rows, area_before_rows, no_form_among_rows,
                                     no_form_among_rows, row_unequal, row_unequal, row_with_a_bad_word, row_without_words, rows_too_wide, names_too_many,
                                     last_row_unended, followed_by_a_fault]


def beside_picture(random, lines, rows):
    """A sheet with these rows as they are, or with another line among them, no calls, and the refusal."""
    sheet, refusal = random.choice(BESIDE_PICTURES)(random, list(lines), rows)
    length = len(sheet) if isinstance(sheet, bytes) else len(sheet_of(sheet))
    return sheet, [], (1, 0) if length > 32768 else refusal


def damage_twice(random, lines):
    """An axis record or an area name again, at once or late."""
    records = [line for line in lines if line.startswith(("axis", "area"))]
    if not records:
        lines = ["axis\tc\t-\tmax\tlen\t00000000"] + lines
        records = lines[:1]
    line = random.choice(records)
    place = random.randint(lines.index(line) + 1, len(lines))
    if line.startswith("area"):
        line = "\t".join(line.split("\t")[:2] + ["1", "2", "1", "2"])
    return with_line(lines, place, line), (6, place + 1)


def damage_late(random, lines):
    """An area after the rest, or an axis record after an area or the rest."""
    given = {line.split("\t")[1] for line in lines if line.startswith("axis")}
    loose = [place for place, line in enumerate(lines) if not line.startswith(("axis", "area", "row"))]
    areas = [place for place, line in enumerate(lines) if line.startswith(("area", "row"))]
    free = [letter for letter in "cr" if letter not in given]
    if free and (areas or loose) and random.random() < 0.6:
        line, first = f"axis\t{random.choice(free)}\t-\tmin\tpct\t00000000", min(areas + loose)
    elif loose:
        line, first = random.choice(["area\tlate\t1\t2\t1\t2", "row\tlate", "row\t.\tlate"]), loose[0]
    else:
        return damage_form(random, lines)
    place = random.randint(first + 1, len(lines))
    return with_line(lines, place, line), (7, place + 1)


def damage_crowded(random, lines):
    """One more than a limit, at its line; now and then with a lower fault on the same line."""
    letter = random.choice("cr")
    size = "len\t3f800000\tauto\t00000000"
    way = random.choice(["component", "repeat", "track", "spare", "area", "place", "place"])
    if way == "area":
        full = [f"area\t{number}\t{number + 1}\t{number + 2}\t1\t2" for number in range(64)]
        last, number = random.choice([("area\tx\t65\t66\t1\t2", 8), ("area\tx\t1\t2\t1\t2", 12), ("area\t0\t1\t2\t1\t2", 6),
                                      ("area\tx\t1\t1\t1\t2", 5), ("area\tx\t0\t1\t1\t2", 4)])
    elif way == "place":
        place, cell = f"place\t{letter}\tauto\t-\t0\tspan\t-\t2", "cell" + "\tauto\t-\t0" * 4
        cells = random.choice([0, 0, 1, 100, 255, 256])
        full = [cell] * cells + [place] * (256 - cells)
        random.shuffle(full)
        last, number = random.choice([(place, 8), (cell, 8), (cell.replace("auto\t-\t0", "span\t-\t33", 1), 4)])
    elif way == "track":
        full = [f"repeat\t{letter}\t2"] + [f"track\t{letter}\t{size}"] * 32
        last, number = random.choice([(f"track\t{letter}\t{size}", 8), (f"track\t{letter}\tlen\t80000000\tauto\t00000000", 3)])
    elif way == "spare":
        full = [f"spare\t{letter}\t{size}"] * 64
        last, number = f"spare\t{letter}\t{size}", 8
    else:
        full = [f"track\t{letter}\t{size}"] * 64
        last = f"track\t{letter}\t{size}" if way == "component" else f"repeat\t{letter}\tfill"
        number = 8
    return sheet_of(full + [last] + ["item\tc\t0"]), (number, len(full) + 1)


def damage_length(random, lines):
    """A sheet longer than the longest."""
    more = 32769 - len(sheet_of(lines)) + random.choice([0, 0, 1, 100])
    return sheet_of(lines) + (b"\n" * more if random.random() < 0.5 else b"x" * more), (1, 0)


DAMAGES = [damage_one_line] * 14 + [damage_form] * 3 + [damage_end] * 2 + \
          [damage_area, damage_overlap, damage_overlap, damage_twice, damage_twice, damage_late, damage_late, damage_crowded, damage_length]


def damaged(random, lines):
    """A damaged sheet, no calls, and the refusal."""
    lines = lines or ["item\tc\t0"]
    sheet, refusal = random.choice(DAMAGES)(random, lines)
    if len(sheet) > 32768:
        refusal = (1, 0)
    return sheet, [], refusal


def spoiled(random, lines):
    """Bytes or lines changed at random."""
    lines = list(map(to_bytes, lines)) or [b"item\tc\t0"]
    for _ in range(random.choice([1, 1, 2])):
        place = random.randrange(len(lines))
        way = random.randrange(6)
        if way == 0:
            del lines[place]
        elif way == 1:
            lines.insert(random.randrange(len(lines) + 1), lines[place])
        elif way == 2:
            other = random.randrange(len(lines))
            lines[place], lines[other] = lines[other], lines[place]
        else:
            lines[place] = spoiled_line(random, lines[place])
        lines = lines or [b"item\tc\t0"]
    return sheet_of(lines)


def spoiled_line(random, line):
    at = random.randrange(len(line) + 1)
    byte = bytes([random.choice(b"0123456789abcdef-\tcrx\n") if random.random() < 0.9 else random.randrange(256)])
    return line[:at] + (byte if random.random() < 0.7 else b"") + line[at + random.randrange(2):]


def refused_call(random, letter):
    """An entry call that the table refuses by 2 or 4."""
    if random.random() < 0.5:
        return letter, random.choice([1, 5, 0, 20001]), random.choice(BAD_NAMES + [b"a\tb"])
    return letter, random.choice([0, 20001, 65535, 4294967295]), random.choice([b"a", b"x"])
