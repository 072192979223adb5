"""Templates whose repetitions depend on every rounding: found by search over random sizes."""
from unittest import mock

import binary32
import rules
from reader import Axis, Component, Size, Track


def other_readings(axis, repeat):
    """The quotient by readings that differ from document 01's in a rounding or an order."""
    inner = axis.inner
    outside = [component for component in axis.components if component.count is None or not component.automatic()]
    one = rules.repetition_used(repeat, inner)
    gap = rules.gap_size(axis)
    gaps = rules.tracks_outside(axis.components) + len(repeat.tracks) - 1
    measures = [rules.repeated_measure(track, inner) for track in repeat.tracks]
    used = [rules.sum_of(component, inner) * rules.times(component, 0) for component in outside]
    backwards = binary32.total(binary32.rounded(value) for value in reversed(used))
    further = rules.further_used(axis, repeat)
    firsts = {
        "doubles": sum(used) + sum(measures) + gaps * gap,
        "backwards": binary32.add(binary32.add(backwards, one), binary32.multiply(gaps, gap)),
        "gaps first": binary32.add(binary32.add(binary32.total(map(binary32.rounded, used)), binary32.multiply(gaps, gap)), one),
        "repeat first": binary32.add(binary32.total([one] + list(map(binary32.rounded, used))), binary32.multiply(gaps, gap)),
    }
    found = [binary32.subtract(inner, first) / further for first in firsts.values() if first <= inner]
    found.append((inner - firsts["doubles"]) / (sum(measures) + len(measures) * gap) if firsts["doubles"] <= inner else 0.0)
    return found


def shaky(axis, repeat):
    """Whether some other reading gives another number of repetitions."""
    own = rules.fitting_repetitions(axis, repeat)
    return any(rules.whole_part(value, axis.rule) + 1 != own for value in other_readings(axis, repeat) if value >= 0)


def random_size(random):
    kind = random.choice(["len", "len", "len", "pct"])
    value = random.uniform(0.01, 60) if kind == "len" else random.uniform(0.0001, 0.08)
    return Size(kind, binary32.to_bits(binary32.rounded(value)))


def random_track(random):
    size = random_size(random)
    return Track(size, size if random.random() < 0.7 else random_size(random))


def thin_track(random):
    """A track that measures less than 1, or just 1, or as any other."""
    bits = random.choice([0, 1, 0x3f7fffff, 0x3f800000, 0x3f800001, binary32.to_bits(random.uniform(0, 1)), binary32.to_bits(random.uniform(0, 1))])
    size = Size("len", bits)
    if random.random() < 0.3:
        size = Size("pct", binary32.to_bits(random.uniform(0, 0.01)))
    return Track(size, size if random.random() < 0.6 else random.choice([Size("len", 0), Size("auto", 0), size]))


def random_axis(random, repeated=random_track):
    axis = Axis(rule=random.choice(["max", "min"]))
    repeat = Component(random.choice(["fill", "fit"]), [repeated(random) for _ in range(random.choice([1, 1, 2, 3, 4]))], [[]])
    outside = [Component(random.choice([None, None, 2, 3, 7]), [random_track(random)], [[]]) for _ in range(random.randrange(5))]
    axis.components = outside + [repeat]
    random.shuffle(axis.components)
    axis.gap = random_size(random) if random.random() < 0.6 else Size("len", 0)
    return axis, repeat


def search(random, repeated=random_track):
    """An axis with a shaky number of repetitions, or the last one tried."""
    for _ in range(40):
        axis, repeat = random_axis(random, repeated)
        axis.inner = binary32.rounded(random.uniform(50, 2000))
        # The inner size at which the repetitions just fit, and its neighbours.
        fitting = random.randint(1, 40)
        used = rules.first_used(axis, repeat) + rules.further_used(axis, repeat) * fitting
        if used > 60000:
            continue
        around = binary32.to_bits(binary32.rounded(used))
        for step in (0, -1, 1, -2, 2, 3, -3):
            axis.inner = binary32.from_bits(around + step)
            if shaky(axis, repeat):
                return axis
    return axis


def size_fields(track):
    return f"{track.minimum.kind}\t{track.minimum.bits:08x}\t{track.maximum.kind}\t{track.maximum.bits:08x}"


def lines(random, letter):
    """Found by document 01's own sums, in which no track is raised: so the sheets of a seed stay."""
    with mock.patch.object(rules, "repeated_measure", rules.measure):
        return lines_of(search(random), letter)


def thin_lines(random, letter):
    """Found among repeats of thin tracks, by the sums in which they are raised."""
    return lines_of(search(random, lambda random: thin_track(random) if random.random() < 0.7 else random_track(random)), letter)


def lines_of(axis, letter):
    found = [f"axis\t{letter}\t{binary32.to_bits(axis.inner):08x}\t{axis.rule}\t{axis.gap.kind}\t{axis.gap.bits:08x}"]
    for component in axis.components:
        tracks = [f"track\t{letter}\t{size_fields(track)}" for track in component.tracks]
        if component.count is None:
            found += tracks
        else:
            found += [f"repeat\t{letter}\t{component.count}", *tracks, f"end\t{letter}"]
    return found
