"""The answer to a panel, read from its lines: sizes, records, placements, line names."""
from model import LETTERS
from reader import Size, Track


class Answered:
    def __init__(self, lines):
        # Whatever has no size is no answer to an accepted panel.
        self.refused = None if any(line.startswith("size") for line in lines) else " ".join(lines) or "nothing"
        self.repetitions, self.explicit = {}, {}
        self.records = {letter: [] for letter in LETTERS}
        self.placements = []
        self.names = {letter: [] for letter in LETTERS}
        # Where the cells land: column lines, row lines; packed densely only where it was asked.
        self.sparse, self.dense = [], None
        for line in lines:
            self.read(line.split("\t"))

    def read(self, fields):
        if fields[0] == "size":
            self.at = fields[1]
            self.repetitions[self.at], self.explicit[self.at] = int(fields[2]), int(fields[3])
        elif fields[0].isdigit():
            low, high = (Size(kind, int(bits, 16)) for kind, bits in (fields[3:5], fields[5:7]))
            self.records[self.at].append((fields[2] == "y", Track(low, high)))
        elif fields[0] == "place":
            self.placements.append((fields[1], (fields[2], int(fields[3])), (fields[4], int(fields[5]))))
        elif fields[0] == "cell":
            self.sparse.append(tuple(map(int, fields[1:])))
        elif fields[0] == "cells":
            numbers = list(map(int, fields[1:]))
            self.dense = [tuple(numbers[at:at + 4]) for at in range(0, len(numbers), 4)]
        elif fields[0] == "names":
            self.names[fields[1]].append(fields[3:])

    def refuses_picture(self):
        """Whether it is a refusal of rows of unequal width, or of a name whose cells form no filled rectangle."""
        return self.refused is not None and self.refused.startswith(("refused\t13\t", "refused\t14\t"))

    def tracks(self, letter):
        """The number of tracks of an axis, implicit ones too."""
        return len(self.records[letter]) // 2

    def is_collapsed(self, letter, place):
        return self.records[letter][2 * place + 1][0]

    def ends(self, index):
        """Both ends of a placement, lines as positions."""
        letter, *ends = self.placements[index]
        return [(kind, position_of(number, self.explicit[letter]) if kind == "line" else number) for kind, number in ends]

    def item(self, index):
        """Start and size in tracks of an item placed so."""
        return item_between(*self.ends(index))


def position_of(number, explicit):
    """A grid line as lines from the first explicit one, not held."""
    return number - 1 if number > 0 else number + explicit + 1


def item_between(start, end):
    """Start and size of an item after CSS 8.3.1, its ends (kind, position or span); the start is None where CSS finds it."""
    at = [number if kind == "line" else None for kind, number in (start, end)]
    if None not in at:
        return in_order(*at)
    # Of two spans the end's is dropped.
    size = next((number for kind, number in (start, end) if kind == "span"), 1)
    if at[0] is not None:
        return at[0], size
    return (at[1] - size if at[1] is not None else None), size


def in_order(start, end):
    """Two lines in order: swapped where they are not; where they are equal the end is dropped."""
    low, high = min(start, end), max(start, end)
    return low, high - low or 1
