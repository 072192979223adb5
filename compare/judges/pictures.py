"""Pictures of areas for made sheets: rows of words, good ones and broken ones, and lines that stand between them."""
import areas
import css

# Runs of dots, which are empty cells whatever their length.
DOTS = [1, 1, 1, 1, 2, 3, 31, 32, 33, 40]
BAD_WORDS = ["", "x" * 33, "a b", "a\x7f", "\xe9", ". .", "." * 20 + "x" * 13, "a\r", " "]


def dots(random):
    return "." * random.choice(DOTS)


def grid(random, rows, columns):
    """Rows of dots of many lengths."""
    return [[dots(random) for _ in range(columns)] for _ in range(rows)]


def draw(rows, area, name):
    row_start, row_end, column_start, column_end = area
    for row in range(row_start - 1, row_end - 1):
        rows[row][column_start - 1:column_end - 1] = [name] * (column_end - column_start)


def good(random, height, width, names, cuts):
    """A picture of at most these names: parts of a grid cut at lines, some of them left empty."""
    parts = areas.cut(random, (1, height + 1, 1, width + 1), cuts)
    random.shuffle(parts)
    rows = grid(random, height, width)
    kept = random.randint(1, len(parts)) if random.random() < 0.8 else len(parts)
    for name, part in zip(names, parts[:kept]):
        draw(rows, part, name)
    return rows


def changed(random, rows):
    """A picture with a cell, a run or a row of it changed: an L shape, a gap, a second run, columns that are moved, or a good one again."""
    rows = [list(row) for row in rows]
    names = sorted({word for row in rows for word in row if word.strip(".")}) or ["a"]
    row = random.randrange(len(rows))
    column = random.randrange(len(rows[0]))
    way = random.randrange(7)
    if way == 0:
        rows[row][column] = dots(random)
    elif way == 1:
        rows[row][column] = random.choice(names)
    elif way == 2:
        # The row moved by a column.
        rows[row] = [dots(random)] + rows[row][:-1]
    elif way == 3:
        # The row again, further below.
        rows.insert(random.randint(row + 1, len(rows)), list(rows[row]))
    elif way == 4:
        rows.insert(row, [dots(random) for _ in rows[0]])
    elif way == 5:
        # A run of a name again in its row.
        rows[row] = rows[row] + [dots(random), rows[row][column]]
        rows[:row] = [other + [dots(random)] * 2 for other in rows[:row]]
        rows[row + 1:] = [other + [dots(random)] * 2 for other in rows[row + 1:]]
    else:
        # The bounding box of a name filled but for one cell.
        name = random.choice(names)
        cells = [(at, place) for at, words in enumerate(rows) for place, word in enumerate(words) if word == name]
        if cells:
            at, place = random.choice(cells)
            rows[at][place] = dots(random)
    return rows


def line(words):
    return "\t".join(["row", *words])


def lines(rows):
    return list(map(line, rows))


def refusal(rows, first):
    """The refusal of rows of equal width that stand from a line on: by 14 at the last of them, None where there is none."""
    return None if css.picture_areas(rows) is not None else (14, first + len(rows) - 1)


def one_name_too_many(random):
    """Rows with 64 names, and one more in one of the last rows, or in one of unequal width; its line from 1."""
    width = random.choice([1, 2, 4, 8, 16, 32, 64])
    names = [f"n{number}" for number in range(64)]
    rows = [names[at:at + width] for at in range(0, 64, width)]
    more = [list(map(str, rows[-1])) for _ in range(random.randrange(3))]
    last = rows[-1][:-1] + ["more"] if random.random() < 0.6 else rows[-1] + ["more"]
    return rows + more + [last], len(rows) + len(more) + 1


def others(random):
    """A line of no form, `row` without a word among them."""
    return random.choice(["", "row", "nothing", "Row\ta", "row a", "\trow\ta"])
