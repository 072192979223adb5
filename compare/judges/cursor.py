"""The cursor on the panel: document 02, Req 01, in its words. Places are counted from the first line of the grid, lines from the first explicit one."""
import binary32
import reader
import rules


# Positions.

def definite(size, inner):
    """The f32 of a fixed kind; of a percentage only where there is an inner size."""
    return None if size.kind == "pct" and inner is None else rules.definite(size, inner)


def measure(track, inner):
    """Layer 3's: the definite maximum raised to the definite minimum, else the minimum; None where neither is definite."""
    maximum = definite(track.maximum, inner)
    minimum = definite(track.minimum, inner)
    if maximum is None:
        return minimum
    return maximum if minimum is None else max(maximum, minimum)


def record_measures(axis, explicit):
    """What each record measures: nothing where it is collapsed, None where it has no definite size."""
    return [0.0 if track is None else measure(track, axis.inner) for track in rules.record_sizes(axis, explicit)]


def record_starts(measures):
    """Where each record starts, and where the last one ends: running sums in record order."""
    starts = [0.0]
    for measured in measures:
        starts.append(binary32.add(starts[-1], measured))
    return starts


def line_positions(starts):
    """A line lies at the start of the track after it, the last line at the end of the last track; a grid with no track has its one line at 0."""
    tracks = starts[1:-1:2]
    return tracks + [starts[-2]] if tracks else [0.0]


class Axis:
    """The lines of an axis of a state."""

    def __init__(self, state, letter):
        axis = state.panel.axes[letter]
        self.explicit = state.explicit[letter]
        self.first = -axis.negative
        self.last = self.explicit + axis.positive
        measures = record_measures(axis, self.explicit)
        self.tracks = len(measures) // 2
        self.positions = None if None in measures else line_positions(record_starts(measures))

    def has(self, line):
        return self.first <= line <= self.last

    def position(self, line):
        return self.positions[line - self.first]

    def refusal(self, items, stores=()):
        """The number of what is short, and then of what has no definite size; 0 where nothing is."""
        if items < self.tracks or any(store < STORE_BYTES for store in stores):
            return reader.SHORT
        return reader.INDEFINITE if self.positions is None else 0

    def nearest(self, cursor):
        """The grid line whose distance is the least, the lower one on a tie."""
        distances = [distance(position, cursor) for position in self.positions]
        return rules.grid_line(self.first + first_least(distances), self.explicit)


STORE_BYTES = 32768


def distance(position, cursor):
    """An f32 difference, rounded once."""
    return abs(binary32.subtract(position, cursor))


def first_least(distances):
    return distances.index(min(distances))


# Lists of placements.

def own_lines(settled, explicit):
    """The two lines of a settled placement, not held again: reversed ones swapped, equal ones a track apart; None where an end is no line, or line 0."""
    if any(kind != "line" or number == 0 for kind, number in settled):
        return None
    start, end = (rules.uncut_line(number, explicit) for _, number in settled)
    return in_order(start, end)


def in_order(start, end):
    return (start, start + 1) if start == end else (min(start, end), max(start, end))


def listed(state, letter, axis, is_hit):
    """The numbers, from 0, of the axis's placements whose lines lie on the grid and are hit, in placement order."""
    names = state.names(letter)
    hits = []
    for number, placement in enumerate(state.panel.placements):
        if placement.cell:
            continue
        lines = own_lines(names.resolve(placement), axis.explicit) if placement.axis == letter else None
        if lines and all(map(axis.has, lines)) and is_hit(*lines):
            hits.append(number)
    return hits


def lies_within(position, low, high):
    """Ends included."""
    return low <= position <= high


def lies_between(start, line, end):
    return start < line < end


# The three questions: an answer, or the number of a refusal.

def is_length(bits):
    return reader.in_range(bits, reader.LARGEST_LENGTH)


def nearest_line(state, letter, cursor, items):
    axis = state.cursor(letter)
    number = axis.refusal(items) if is_length(cursor) else reader.VALUE
    return number, None if number else axis.nearest(binary32.from_bits(cursor))


def placements_within(state, letter, low, high, items, *stores):
    axis = state.cursor(letter)
    number = axis.refusal(items, stores) if is_length(low) and is_length(high) else reader.VALUE
    if number:
        return number, None
    ends = binary32.from_bits(low), binary32.from_bits(high)
    return 0, listed(state, letter, axis, lambda *lines: all(lies_within(axis.position(line), *ends) for line in lines))


def placements_around(state, letter, line, items, *stores):
    axis = state.cursor(letter)
    number = axis.refusal(items, stores) if line else reader.ZERO_LINE
    if number:
        return number, None
    given = rules.uncut_line(line, axis.explicit)
    return 0, listed(state, letter, axis, lambda start, end: lies_between(start, given, end))
