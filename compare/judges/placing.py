"""Where the cells of a panel land: CSS Grid Level 1, 8.3.1 and 8.5, row flow, step by step, with what document 02 (Req 10) fixes: as many
columns as are explicit, and rows up to 10,000. Lines are numbered from 1."""
from dataclasses import dataclass

import reader

SPARSE, DENSE = "sparse", "dense"
LAST_ROW_LINE = 10001


class Unplaced(Exception):
    """The first cell, in placing order, for which there is no place; by its line of the sheet."""

    def __init__(self, line):
        super().__init__(line)
        self.line = line


@dataclass
class Side:
    """An item in one axis: its first and its last line where it is definite, else None, and how many tracks it spans."""
    lines: object
    span: int


@dataclass
class Item:
    """A cell: its line of the sheet, and its two sides."""
    line: int
    columns: Side
    rows: Side


@dataclass
class Area:
    """Where an item lies, by its lines."""
    column: int
    column_end: int
    row: int
    row_end: int

    def meets(self, other):
        return self.column < other.column_end and other.column < self.column_end and self.row < other.row_end and other.row < self.row_end


# 8.3.1, on one axis.

def line_number(number, explicit):
    """A settled line among the lines from 1 on, not held again; line 0 counts as auto."""
    if number == 0:
        return None
    return number if number > 0 else explicit + 2 + number


def side(settled, explicit):
    """From the settled ends, each a kind and a number."""
    lines = [line_number(number, explicit) if kind == "line" else None for kind, number in settled]
    spans = [max(number, 1) if kind == "span" else None for kind, number in settled]
    start, end = in_order(*lines)
    if start is not None and end is not None:
        return Side((start, end), end - start)
    # "If the placement contains two spans, remove the one contributed by the end."
    span = spans[0] or spans[1] or 1
    if start is not None:
        return Side((start, start + span), span)
    return Side(None if end is None else (end - span, end), span)


def in_order(start, end):
    """Two lines: reversed ones are swapped; of two equal ones the end is removed."""
    if start is not None and end is not None:
        return (start, None) if start == end else (min(start, end), max(start, end))
    return start, end


# 8.5.

class Placing:
    """The grid as it fills; `columns` is how many there are."""

    def __init__(self, columns, packing):
        self.columns = columns
        self.packing = packing
        self.placed = []
        # Past what step 2 placed in each row so far, by the first row of an item.
        self.past = {}
        # The cursor of step 4.
        self.column = self.row = 1

    def fits(self, area):
        """Whether it lies within the columns and rows."""
        return 1 <= area.column < area.column_end <= self.columns + 1 and 1 <= area.row < area.row_end <= LAST_ROW_LINE

    def in_way(self, area):
        """Some item that occupies a cell of it, None where none does."""
        return next((other for other in self.placed if other.meets(area)), None)

    def along(self, column, item, row):
        """The first column from this one on at which the item overlaps nothing in these rows, None where it would pass the last one.

        "Increment the column position until this item's grid area does not overlap any occupied grid cells": all columns up to the
        end of what is in the way overlap that too."""
        while column + item.columns.span <= self.columns + 1:
            area = Area(column, column + item.columns.span, row, row + item.rows.span)
            other = self.in_way(area)
            if other is None:
                return area
            column = other.column_end
        return None

    def down(self, row, item):
        """The first row from this one on at which an item of these columns overlaps nothing."""
        while row + item.rows.span <= LAST_ROW_LINE:
            area = Area(*item.columns.lines, row, row + item.rows.span)
            if self.in_way(area) is None:
                return area
            row += 1
        return None

    def both_fixed(self, item):
        """Step 1: where it says."""
        area = Area(*item.columns.lines, *item.rows.lines)
        return area if self.fits(area) else None

    def row_fixed(self, item):
        """Step 2: the earliest column; sparse: past what this step placed before in that row."""
        row, row_end = item.rows.lines
        if row < 1 or row_end > LAST_ROW_LINE:
            return None
        area = self.along(self.past.get(row, 1) if self.packing == SPARSE else 1, item, row)
        if area:
            self.past[row] = area.column_end
        return area

    def by_cursor(self, item):
        """Step 4; dense: the cursor starts anew for each item."""
        if self.packing == DENSE:
            self.column = self.row = 1
        area = self.in_its_columns(item) if item.columns.lines else self.anywhere(item)
        if area:
            self.column, self.row = area.column, area.row
        return area

    def in_its_columns(self, item):
        """The cursor's column is set to the item's; where that is less than before, the row goes on by one."""
        column, column_end = item.columns.lines
        if column < 1 or column_end > self.columns + 1:
            return None
        return self.down(self.row + 1 if column < self.column else self.row, item)

    def anywhere(self, item):
        """The column goes on until there is room, or until the last column; then the row goes on by one, from its first column."""
        if item.columns.span > self.columns:
            return None
        column, row = self.column, self.row
        while row + item.rows.span <= LAST_ROW_LINE:
            area = self.along(column, item, row)
            if area:
                return area
            column, row = 1, row + 1
        return None


def steps(items):
    """The items in placing order, each with the step that places it."""
    fixed = [item for item in items if item.columns.lines and item.rows.lines]
    in_rows = [item for item in items if not item.columns.lines and item.rows.lines]
    rest = [item for item in items if not item.rows.lines]
    return [(Placing.both_fixed, item) for item in fixed] + [(Placing.row_fixed, item) for item in in_rows] + [(Placing.by_cursor, item) for item in rest]


def lands(items, columns, packing):
    """The areas of the items in their own order; raises `Unplaced`."""
    grid = Placing(columns, packing)
    found = {}
    for place, item in steps(items):
        area = place(grid, item)
        if area is None:
            raise Unplaced(item.line)
        grid.placed.append(area)
        found[id(item)] = area
    return [found[id(item)] for item in items]
