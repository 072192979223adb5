"""Makes grids for the examples of a layout engine, the same ones for the same seed and number: a sheet, items that it does not list, and
another inner size of an axis.

They lie beside what docs/DIFFERENCES.md says of the Rust: templates are valid, areas share no cell, no track of an automatic repeat is
below 1 at either size, and no count is near a limit."""
import comparable
import maker
import model
from maker import bits

# No automatic repeat of these writes out more names than an axis can have.
LENGTHS = [length for length in comparable.LENGTHS if length >= 5]
FAR_SHARE = 0.01
FURTHEST = 2500
MOST_ITEMS = 9


class Layout(comparable.Comparable):
    def __init__(self, seed, number):
        super().__init__(seed, number)
        self.lengths = LENGTHS
        self.is_far = self.chance(FAR_SHARE)

    def far_number(self):
        return self.random.randint(100, FURTHEST)

    def end(self):
        """Any end, line 0 and a span of 0 too."""
        return maker.Maker.end(self)

    def axis_lines(self, letter):
        """The axis record, and its template with sizes for implicit tracks."""
        record = self.axis_record(letter)
        spares = [f"spare\t{letter}\t{self.track(False)}" for _ in range(self.below(4))]
        return record, (self.template(letter) if self.chance(0.9) else []) + spares

    def sheet(self):
        records, runs = zip(*map(self.axis_lines, model.LETTERS))
        return [*records, *self.area_lines(), *self.mixed(*runs)]

    def items(self):
        return ["\t".join(self.end() for _ in range(4)) for _ in range(self.random.randint(0, MOST_ITEMS))]

    def resize(self):
        inner = comparable.INNER_STEP * self.random.randint(comparable.INNER_STEP, comparable.MOST_INNER_STEPS)
        return f"resize\t{self.pick('cr')}\t{bits(float(inner))}"


def make(seed, number):
    """A grid as text."""
    one = Layout(seed, number)
    return "".join(line + "\n" for line in [*one.sheet(), "items", *one.items(), one.resize()])
