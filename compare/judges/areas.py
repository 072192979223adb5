"""Areas of made sheets: apart, touching, or sharing cells. An area is its row start, row end, column start and column end."""

TRIES = 20


def in_common(one, other):
    """Whether two areas have a row and a column in common, by the rows and columns themselves."""
    rows = set(range(*one[:2])) & set(range(*other[:2]))
    columns = set(range(*one[2:])) & set(range(*other[2:]))
    return bool(rows and columns)


def apart(drawn, draw):
    """One more area that shares no cell with those that are drawn, None where none is found."""
    for _ in range(TRIES):
        area = draw()
        if not any(in_common(area, other) for other in drawn):
            return area
    return None


def all_apart(draw, count):
    """At most so many areas of which no two share a cell."""
    drawn = []
    for _ in range(count):
        area = apart(drawn, draw)
        drawn += [area] if area else []
    return drawn


def tiled(random, count):
    """So many areas, each within a square of its own, squares of up to three tracks side by side: some of them touch, none share a cell."""
    size = random.choice([1, 1, 1, 2, 3])
    squares = random.sample([(row, column) for row in range(9) for column in range(9)], count)
    return [(*side(random, size, row), *side(random, size, column)) for row, column in squares]


def side(random, size, square):
    """Start and end within the tracks of a square."""
    start = random.randint(0, size - 1)
    return size * square + 1 + start, size * square + 1 + random.randint(start + 1, size)


def cut(random, area, cuts):
    """The parts of an area that is cut at lines so often: they touch at edges and corners."""
    parts = [area]
    for _ in range(cuts):
        place = random.randrange(len(parts))
        parts[place:place + 1] = halves(random, parts[place])
    return parts


def halves(random, area):
    """Both sides of a cut between two rows or two columns; the area alone where it has one cell."""
    row_start, row_end, column_start, column_end = area
    ways = [place for place in (0, 2) if area[place + 1] - area[place] > 1]
    if not ways:
        return [area]
    if random.choice(ways) == 0:
        line = random.randrange(row_start + 1, row_end)
        return [(row_start, line, column_start, column_end), (line, row_end, column_start, column_end)]
    line = random.randrange(column_start + 1, column_end)
    return [(row_start, row_end, column_start, line), (row_start, row_end, line, column_end)]


def over(random, area):
    """An area that shares a cell with this one: around one of its cells."""
    edges = []
    for start, end in (area[:2], area[2:]):
        track = random.randrange(start, end)
        edges += [max(1, track - random.randint(0, 2)), min(10001, track + 1 + random.randint(0, 2))]
    return tuple(edges)


def first_later(drawn):
    """The place of the first area that shares a cell with an earlier one, None where none does."""
    later = (place for place, area in enumerate(drawn) if any(in_common(area, other) for other in drawn[:place]))
    return next(later, None)


def line(name, area):
    return "\t".join(["area", name, *map(str, area)])


def of_line(text):
    """The area of a line."""
    return tuple(map(int, text.split("\t")[2:]))
