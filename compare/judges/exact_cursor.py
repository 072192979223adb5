"""The cursor's answers in exact numbers, from the records of the answer: where every record has a whole length the sums are exact, so f32 may not differ.

A second writing beside `cursor.py`: it reads the printed records and places items by CSS 8.3.1 (`answered.py`)."""
from fractions import Fraction
from itertools import accumulate

import binary32
from answered import Answered, in_order, position_of

LARGEST_SUM = 2 ** 22  # below it every half is an f32


class Lines:
    """The places of an axis's lines as exact numbers, None where a record has no whole length."""

    def __init__(self, answered, letter, before, numbers):
        self.answered, self.letter, self.before = answered, letter, before
        # The numbers of the placements that are printed.
        self.numbers = numbers
        lengths = [self.length(*record) for record in answered.records[letter]]
        self.known = None not in lengths and sum(lengths) < LARGEST_SUM
        if self.known:
            # Past the gutter before each track; the last line past the last track, whose gutter has no width.
            self.places = list(accumulate(lengths))[0::2]

    def length(self, collapsed, track):
        sizes = [binary32.from_bits(size.bits) if size.kind == "len" else None for size in (track.minimum, track.maximum)]
        if collapsed:
            return 0
        if None in sizes or not all(size.is_integer() for size in sizes):
            return None
        return int(max(sizes))

    def nearest(self, bits, items):
        """The places from the cursor, nearest first and the lower of two first."""
        at = Fraction(binary32.from_bits(int(bits, 16)))
        if at.denominator > 2:
            return None
        found = sorted((abs(place - at), number) for number, place in enumerate(self.places))[0][1] - self.before
        return [str(found + 1 if found >= 0 else found - self.answered.explicit[self.letter] - 1)]

    def items(self):
        """Each placement with both its lines, in order, as numbers from the first line of the grid."""
        for number, (letter, *ends) in zip(self.numbers, self.answered.placements):
            if letter != self.letter or any(kind != "line" or line == 0 for kind, line in ends):
                continue
            start, size = in_order(*(position_of(line, self.answered.explicit[letter]) for _, line in ends))
            lines = range(start + self.before, start + self.before + size + 1)
            if lines[0] >= 0 and lines[-1] < len(self.places):
                yield number, lines

    def within(self, low, high, *lent):
        low, high = (binary32.from_bits(int(bits, 16)) for bits in (low, high))
        return [str(number) for number, lines in self.items() if low <= self.places[lines[0]] and self.places[lines[-1]] <= high]

    def around(self, line, *lent):
        """The line is one of a placement's own, and neither its first nor its last."""
        line = position_of(int(line), self.answered.explicit[self.letter]) + self.before
        return [str(number) for number, lines in self.items() if line in lines[1:-1]]


def difference(state, output, rows, answers):
    """What of the answers that are no refusals is not what exact numbers give, None where nothing is."""
    answered = Answered(output)
    # A cell is two of the placements, and in no list.
    numbers = [number for number, placement in enumerate(state.panel.placements) if not placement.cell]
    lines = {letter: Lines(answered, letter, state.panel.axes[letter].negative, numbers) for letter in answered.records}
    for row, answer in zip(rows, answers):
        word, letter, *fields = row.split("\t")
        if word in ("resize", "cells", "settled") or answer.startswith("refused") or not lines[letter].known:
            continue
        exact = getattr(lines[letter], word)(*fields)
        if exact is not None and [word, *exact] != answer.split("\t"):
            return f"exact: {row!r}: {exact}, model {answer!r}"
    return None
