"""Automatic placing once more, apart from `placing`: every rectangle of a small grid is tried in row order, on a map of cells.

In document 02's words (Req 10): "a dense item gets the first free rectangle in row order; a sparse one the first at or after the cursor, kept
for each first row among row-fixed items"; and 8.3.1 of css-grid.md."""

# Larger grids are not tried.
MOST_COLUMNS = 16
MOST_ROW = 60
MOST_TRACKS = 200


def extent(ends, explicit):
    """Where an item lies in one axis: ("at", first line, last line) or ("over", tracks), from its two settled ends."""
    lines = {}
    for which, (kind, number) in enumerate(ends):
        if kind == "line" and number != 0:
            lines[which] = number if number > 0 else explicit + 1 - (-number - 1)
    over = [max(1, number) for kind, number in ends if kind == "span"][:1] or [1]
    if len(lines) == 2:
        first, last = sorted(lines.values())
        return "at", first, last if last > first else first + 1
    if 0 in lines:
        return "at", lines[0], lines[0] + over[0]
    if 1 in lines:
        return "at", lines[1] - over[0], lines[1]
    return "over", over[0]


class Item:
    def __init__(self, number, columns, rows):
        self.number = number
        self.columns = columns
        self.rows = rows
        # Both axes fixed, the row fixed, or neither.
        self.turn = 2 if rows[0] == "over" else 0 if columns[0] == "at" else 1

    def candidates(self, width, height):
        """Every rectangle of it that lies in the grid, in row order: row, column, their ends."""
        rows = [self.rows[1:]] if self.rows[0] == "at" else [(row, row + self.rows[1]) for row in range(1, height + 1)]
        columns = [self.columns[1:]] if self.columns[0] == "at" else [(column, column + self.columns[1]) for column in range(1, width + 1)]
        for row, row_end in rows:
            for column, column_end in columns:
                if row >= 1 and column >= 1 and row_end <= 10001 and column_end <= width + 1:
                    yield row, column, row_end, column_end


def cells(rectangle):
    row, column, row_end, column_end = rectangle
    return {(at, place) for at in range(row, row_end) for place in range(column, column_end)}


def is_small(items, width):
    """Whether a map of cells holds all that the items can reach."""
    fixed = [end for item in items for extent in (item.rows, item.columns) if extent[0] == "at" for end in extent[1:]]
    return width <= MOST_COLUMNS and all(abs(end) <= MOST_ROW for end in fixed) and sum(item.rows[1] for item in items if item.turn == 2) <= MOST_TRACKS


def placed(settled, width, explicit, dense):
    """The rectangles of the items in sheet order, or the place of the one that is refused: ("at", list) or ("refused", place).

    `settled` has for each item its two pairs of settled ends, `explicit` the counts by axis; None where the grid is too large to try."""
    items = [Item(number, extent(columns, explicit["c"]), extent(rows, explicit["r"])) for number, (columns, rows) in enumerate(settled)]
    if not is_small(items, width):
        return None
    height = MOST_ROW + 1 + sum(item.rows[1] for item in items if item.turn == 2)
    taken, found, cursors = set(), {}, {}
    for item in sorted(items, key=lambda item: item.turn):
        # The cursor: of all items that are placed by it, or of those with that first row.
        kept = ("row", item.rows[1]) if item.turn == 1 else "all"
        cursor = (1, 1) if dense else cursors.get(kept, (1, 1))
        for rectangle in item.candidates(width, height):
            reached = rectangle[:2] >= cursor if item.turn == 2 else rectangle[1] >= cursor[1]
            if item.turn == 0 or (reached and not cells(rectangle) & taken):
                break
        else:
            return "refused", item.number
        if item.turn:
            cursors[kept] = rectangle[:2]
        taken |= cells(rectangle)
        row, column, row_end, column_end = rectangle
        found[item.number] = (column, column_end, row, row_end)
    return "at", [found[number] for number in range(len(items))]


def apart(rectangles, automatic):
    """Whether no automatic item shares a cell with any other."""
    for place, one in enumerate(rectangles):
        for other in range(place):
            two = rectangles[other]
            meets = one[0] < two[1] and two[0] < one[1] and one[2] < two[3] and two[2] < one[3]
            if meets and (automatic[place] or automatic[other]):
                return False
    return True
