"""The least resize that matters: document 02, Req 12, in its words."""
from dataclasses import replace
from itertools import islice

import reader
import rules

SIZES = range(65536)


def is_asked(axis):
    """An axis with an automatic repeat in a template that counts, a whole-pixel inner size and a length gap."""
    return (rules.automatic_at(rules.counted_components(axis)) is not None and axis.inner is not None and axis.inner.is_integer()
            and axis.gap.kind == "len")


def count_at(axis, size):
    """The number of repetitions that layer 3 gives at a size: percentages are taken of it, all else stays."""
    return rules.repetitions(replace(axis, inner=float(size)))


def outward(size):
    """Every other size by its distance, the wider one first."""
    for change in range(1, len(SIZES)):
        yield from (other for other in (size + change, size - change) if other in SIZES)


def first_other(axis, sizes):
    """The first of these sizes at which the count is not that of now, None where there is none."""
    now = count_at(axis, int(axis.inner))
    return next((size for size in sizes if count_at(axis, size) != now), None)


def least_resize(axis):
    """The number of a refusal, and the first size outward at which the count differs, None where none does."""
    if not is_asked(axis):
        return reader.VALUE, None
    return 0, first_other(axis, outward(int(axis.inner)))


def is_near(axis):
    """Whether the search is short."""
    return first_other(axis, islice(outward(int(axis.inner)), 300)) is not None
