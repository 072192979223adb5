"""CSS's number of repetitions in exact arithmetic, and as each browser finds it in its own unit of length.

A track in the repeat is at least 1 px."""
import math
from fractions import Fraction

import rules

# The unit in which a browser keeps a length, in pixels.
CHROMIUM_UNIT = Fraction(1, 64)
FIREFOX_UNIT = Fraction(1, 60)


def quotient(axis, repeat, kept):
    """Leftover over one more repetition, each length as it is `kept`; None where one repetition overflows."""
    inner = kept(axis.inner)

    def fixed(size):
        return kept(size.value()) if size.kind == "len" else Fraction(size.value()) * inner

    def measure(component):
        least = 1 if component.automatic() else 0
        return sum(max([least, *(fixed(size) for size in (track.minimum, track.maximum) if rules.fixed(size))]) for track in component.tracks)

    outside = [component for component in axis.components if not component.automatic()]
    used = measure(repeat) + sum(measure(component) * rules.times(component, 0) for component in outside)
    gaps = rules.tracks_outside(axis.components) + len(repeat.tracks) - 1
    leftover = inner - used - gaps * fixed(axis.gap)
    return leftover / (measure(repeat) + len(repeat.tracks) * fixed(axis.gap)) if leftover >= 0 else None


def repetitions(axis, kept=Fraction, cut=Fraction):
    """The number of repetitions of an axis with an automatic repeat; the quotient is `cut` before it is made whole."""
    found = None if axis.inner is None else quotient(axis, axis.components[rules.automatic_at(axis.components)], kept)
    if found is None:
        return 1
    return 1 + (math.floor(found) if axis.rule == "max" else math.ceil(cut(found)))


def cut_to_unit(value):
    """Chromium cuts what is below its unit off."""
    return Fraction(value) // CHROMIUM_UNIT * CHROMIUM_UNIT


def nearest_unit(value):
    """Firefox takes the nearest unit."""
    return math.floor(Fraction(value) / FIREFOX_UNIT + Fraction(1, 2)) * FIREFOX_UNIT


def by_cut_quotient(axis):
    """Chromium's number of lengths that it keeps exactly."""
    return repetitions(axis, cut=cut_to_unit)


def by_chromium(axis):
    return repetitions(axis, cut_to_unit, cut_to_unit)


def by_firefox(axis):
    return repetitions(axis, nearest_unit)
