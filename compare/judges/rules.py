"""The rules of document 01, layer by layer, in its words, as document 02 changes them. Columns and rows share every function."""
import math
from bisect import bisect_left, bisect_right

import binary32
from reader import Size, Track

FURTHEST = 10000
LARGEST_COUNT = 4294967295
THINNEST = 1.0
ZERO = Size("len", 0)
AUTO = Size("auto", 0)
AUTO_TRACK = Track(AUTO, AUTO)
SUFFIXES = ("-start", "-end")


# Layer 1: lines.

def held(line):
    """An origin-zero line held within 10,000 of the first."""
    return max(-FURTHEST, min(FURTHEST, line))


def uncut_line(grid_line, explicit):
    """A grid line that is not 0, as an origin-zero line, before it is held."""
    return grid_line - 1 if grid_line > 0 else grid_line + explicit + 1


def origin_zero_line(grid_line, explicit):
    """The same, held."""
    return held(uncut_line(grid_line, explicit))


def lies_outside(line):
    """Whether an uncut number lies outside -10,000..10,000, so that holding it sets a mark."""
    return not -FURTHEST <= line <= FURTHEST


def conversion_mark(grid_line, explicit):
    """Document 02: whether converting a grid line held it; line 0 carries no mark."""
    return grid_line != 0 and lies_outside(uncut_line(grid_line, explicit))


def grid_line(line, explicit):
    """Back from an origin-zero line."""
    return line + 1 if line >= 0 else line - explicit - 1


# Layer 2: sizes.

def definite(size, inner):
    """The f32 of a fixed kind, None for the others."""
    if size.kind == "len":
        return size.value()
    if size.kind == "pct":
        return binary32.multiply(size.value(), inner)
    return None


def fixed(size):
    return size.kind in ("len", "pct")


def measure(track, inner):
    """The definite maximum raised to the definite minimum, else the minimum."""
    maximum = definite(track.maximum, inner)
    minimum = definite(track.minimum, inner)
    if maximum is None:
        return minimum
    return maximum if minimum is None else max(maximum, minimum)


# Layer 3: repetitions and explicit count.

def has_fixed_kind(track):
    return fixed(track.minimum) or fixed(track.maximum)


def counts_as_none(axis):
    """Whether a template counts as no template: it has no track (names alone are none), a repeat of no tracks, a written count of 0,
    two automatic repeats, or one where any track, its own included, has no fixed kind (document 02, request 04)."""
    components = axis.components
    if not components or any(not component.tracks or component.count == 0 for component in components):
        return True
    automatic = sum(component.automatic() for component in components)
    if automatic == 0:
        return False
    every_track_fixed = all(has_fixed_kind(track) for component in components for track in component.tracks)
    return automatic > 1 or not every_track_fixed


def counted_components(axis):
    """The components of what counts as the template."""
    return [] if counts_as_none(axis) else axis.components


def counted_sets(axis):
    """The name sets before, between and after them."""
    return [[]] if counts_as_none(axis) else axis.sets


def tracks_outside(components):
    """The tracks of singles and counted repeats."""
    return sum(written_tracks(component, 0) for component in components)


def written_tracks(component, repetitions):
    """The tracks that a component writes, given the automatic repetitions."""
    return len(component.tracks) * times(component, repetitions)


def times(component, repetitions):
    """How often a component is written, given the automatic repetitions."""
    if component.count is None:
        return 1
    return repetitions if component.automatic() else component.count


def automatic_at(components):
    """The place of the automatic repeat, None where there is none."""
    for place, component in enumerate(components):
        if component.automatic():
            return place
    return None


def sum_of(component, inner):
    """The sum of a component's tracks, in order."""
    return binary32.total(measure(track, inner) for track in component.tracks)


def repeated_measure(track, inner):
    """Document 02, Req 05: inside the automatic repeat, a track below 1 is taken as 1 while counting repetitions."""
    return max(measure(track, inner), THINNEST)


def repetition_used(repeat, inner):
    """The sum of one repetition's tracks, in order."""
    return binary32.total(repeated_measure(track, inner) for track in repeat.tracks)


def used_outside(components, inner):
    """The space of the tracks outside the automatic repeat, in template order."""
    used = []
    for component in components:
        if component.count is None:
            used.append(sum_of(component, inner))
        elif not component.automatic():
            used.append(binary32.multiply(sum_of(component, inner), float(component.count)))
    return binary32.total(used)


def gap_size(axis):
    return definite(axis.gap, axis.inner)


def first_used(axis, repeat):
    """The tracks outside, one repetition and the gaps between them."""
    gaps = min(tracks_outside(axis.components), FURTHEST) + len(repeat.tracks) - 1
    tracks = binary32.add(used_outside(axis.components, axis.inner), repetition_used(repeat, axis.inner))
    return binary32.add(tracks, binary32.multiply(float(gaps), gap_size(axis)))


def further_used(axis, repeat):
    """One more repetition with its gaps."""
    gaps = binary32.multiply(float(len(repeat.tracks)), gap_size(axis))
    return binary32.add(repetition_used(repeat, axis.inner), gaps)


def quotient(leftover, further):
    """Leftover over one repetition; over 0, which no raised repetition is, the largest count, or 0 where both are 0."""
    if further == 0.0:
        return math.inf if leftover > 0.0 else 0.0
    return binary32.divide(leftover, further)


def whole_part(value, rule):
    """Floor or ceiling, at most the largest count."""
    if value >= LARGEST_COUNT:
        return LARGEST_COUNT
    return math.floor(value) if rule == "max" else math.ceil(value)


def fitting_repetitions(axis, repeat):
    """Repetitions by space, before they are held."""
    if axis.inner is None:
        return 1
    first = first_used(axis, repeat)
    if first > axis.inner:
        return 1
    leftover = binary32.subtract(axis.inner, first)
    return whole_part(quotient(leftover, further_used(axis, repeat)), axis.rule) + 1


def most_repetitions(before, tracks):
    """The ceiling of the tracks left before 10,000 over the tracks of one repetition."""
    return -((before - FURTHEST) // tracks)


def repetitions(axis):
    components = counted_components(axis)
    place = automatic_at(components)
    if place is None:
        return 0
    repeat = components[place]
    before = tracks_outside(components[:place])
    if before >= FURTHEST:
        return 0
    return max(1, min(fitting_repetitions(axis, repeat), most_repetitions(before, len(repeat.tracks))))


def template_count(axis):
    """The tracks that the template writes out, not cut."""
    automatic = repetitions(axis)
    return sum(written_tracks(component, automatic) for component in counted_components(axis))


def area_count(panel, letter):
    """The largest area end less 1, and no less than the rows of a picture, or its width (document 02, Req 07)."""
    drawn = max((area.edges(letter)[1] - 1 for area in panel.areas.values()), default=0)
    return max(drawn, picture_count(panel.picture, letter))


def picture_count(picture, letter):
    """The rows of a picture, or its width."""
    return len(picture) if letter == "r" else len(picture[0]) if picture else 0


def explicit_count(panel, letter):
    return max(template_count(panel.axes[letter]), area_count(panel, letter))


# Layer 4: names.

def times_written(line, component, count):
    """How often a repeat's names are written from a line on: writing stops once past line 10,000."""
    tracks = len(component.tracks)
    if count == 0:
        return 0
    if line + tracks > FURTHEST:
        return 1
    if tracks == 0:
        return count
    # The first repetition after which the line is past 10,000.
    return min(count, (FURTHEST - line) // tracks + 1)


def walk(axis):
    """Each name set outside repeats with its line, and each repeat with its first line and the
    number of times that it is written: ("set", line, names) or ("repeat", line, component, times)."""
    line = 1
    automatic = repetitions(axis)
    components = counted_components(axis)
    for place, names in enumerate(counted_sets(axis)):
        yield ("set", line, names)
        if place == len(components):
            return
        component = components[place]
        if component.count is None:
            line += 1
            continue
        written = times_written(line, component, times(component, automatic))
        yield ("repeat", line, component, written)
        line = line_after_repeat(line, component, written)


def line_after_repeat(line, component, written):
    """Names after a repeat written no times sit one line further on."""
    return line + 1 if written == 0 else line + written * len(component.tracks)


def entry_count(axis):
    """The number of name entries after repeats are written out, by counting alone."""
    count = 0
    for step in walk(axis):
        if step[0] == "set":
            count += len(step[2])
        else:
            count += step[3] * sum(len(names) for names in step[2].sets)
    return count


def written_entries(axis):
    """The (line, name) entries, repeats written out, in order."""
    entries = []
    for step in walk(axis):
        if step[0] == "set":
            entries += [(step[1], name) for name in step[2]]
        else:
            entries += repeat_entries(*step[1:])
    return entries


def repeat_entries(line, component, written):
    return [(line + turn * len(component.tracks) + place, name)
            for turn in range(written)
            for place, names in enumerate(component.sets)
            for name in names]


class Names:
    """The names of one axis: its entries and the areas as drawn."""

    def __init__(self, entries, areas, letter, explicit):
        self.areas = areas
        self.letter = letter
        self.explicit = explicit
        self.entered = {}
        for line, name in entries:
            self.entered.setdefault(name, []).append(line)

    def drawn_edge(self, name):
        """The line of the area edge as drawn that bears this name, as a list of none or one."""
        for end, suffix in enumerate(SUFFIXES):
            if name.endswith(suffix) and name[:-len(suffix)] in self.areas:
                return [self.areas[name[:-len(suffix)]].edges(self.letter)[end]]
        return []

    def lines(self, name):
        """The origin-zero lines of a name, each once, in order."""
        return [line - 1 for line in sorted(set(self.entered.get(name, []) + self.drawn_edge(name)))]

    def area_edge(self, area, end):
        """The lowest line of an area's start (0) or end (1), None where it has none."""
        return min(self.lines(area + SUFFIXES[end]), default=None)

    def forward(self, name, first, index):
        """The index-th line of the name from `first` on, uncut; missing ones lie past the end."""
        first = max(first, 0)
        lines = self.lines(name)
        lines = lines[bisect_left(lines, first):]
        if index <= len(lines):
            return lines[index - 1]
        return max(first, self.explicit + 1) + (index - len(lines)) - 1

    def backward(self, name, last, index):
        """The index-th line of the name from `last` back, uncut; missing ones lie before the start."""
        last = self.last_looked_at(last)
        lines = self.lines(name)
        lines = lines[:bisect_right(lines, last)]
        if index <= len(lines):
            return lines[-index]
        return min(last, -1) - (index - len(lines)) + 1

    def last_looked_at(self, last):
        """Counting back looks at no line past the explicit end."""
        return min(last, self.explicit)

    def named_line(self, name, index, end):
        """The origin-zero line of a named line at an end (0 start, 1 end), uncut."""
        if index == 0:
            edge = self.area_edge(name, end)
            if edge is not None:
                return edge
            index = 1
        if index > 0:
            return self.forward(name, 0, index)
        return self.backward(name, self.explicit, -index)

    def found(self, end, which):
        """A named line becomes a line; any other kind stays."""
        if end.kind != "named":
            return end.kind, end.number
        return "line", grid_line(held(self.named_line(end.name, end.number, which)), self.explicit)

    def counted(self, name, number, line, which):
        """The origin-zero line that a named span at an end counts to from the grid line at the other end, uncut."""
        line = origin_zero_line(line, self.explicit)
        if which == 1:
            return self.forward(name, line + 1, max(number, 1))
        return self.backward(name, line - 1, max(number, 1))

    def span_from(self, name, number, line, which):
        """The grid line that this is, held."""
        return "line", grid_line(held(self.counted(name, number, line, which)), self.explicit)

    def resolve(self, placement):
        """Both ends as kinds and numbers."""
        ends = (placement.start, placement.end)
        found = [self.found(end, which) for which, end in enumerate(ends)]
        return [self.settle(found, ends, which) for which in (0, 1)]

    def settle(self, found, ends, which):
        """A named span beside a line counts from it; else it becomes span 1; other kinds stay."""
        kind, number = found[which]
        if kind != "nspan":
            return kind, number
        other_kind, other = found[1 - which]
        if other_kind == "line" and other != 0:
            return self.span_from(ends[which].name, number, other, which)
        return "span", 1

    # Document 02, Req 06: marks.

    def marks(self, placement):
        """For each end whether any step on the way to it held a line."""
        ends = (placement.start, placement.end)
        return [self.mark(ends, which) for which in (0, 1)]

    def line_mark(self, end, which):
        """A written line's own mark is its conversion's; a named line is marked where the line that is found was held."""
        if end.kind == "line":
            return conversion_mark(end.number, self.explicit)
        return end.kind == "named" and lies_outside(self.named_line(end.name, end.number, which))

    def mark(self, ends, which):
        """A named span beside a line takes over that line's mark, and gets one where the line that it counts to was held."""
        end, other = ends[which], ends[1 - which]
        if end.kind != "nspan":
            return self.line_mark(end, which)
        kind, number = self.found(other, 1 - which)
        if kind != "line" or number == 0:
            return False
        return self.line_mark(other, 1 - which) or lies_outside(self.counted(end.name, end.number, number, which))


def line_names(entries, explicit):
    """One list for each explicit line, in entry order, a name once; none where there is no entry."""
    if not entries:
        return []
    lists = [{} for _ in range(explicit + 1)]
    for line, name in entries:
        if line <= explicit + 1:
            lists[line - 1].setdefault(name)
    return [list(names) for names in lists]


# Layer 5: records.

def written_out(axis):
    """The template's tracks with, for each, whether `fit` wrote it."""
    tracks = []
    automatic = repetitions(axis)
    for component in counted_components(axis):
        turns = times(component, automatic)
        # More than 10,000 tracks are never kept: no need to write them.
        turns = min(turns, FURTHEST)
        tracks += [(track, component.count == "fit") for track in component.tracks] * turns
        tracks = tracks[:FURTHEST]
    return tracks


def spare_sizes(axis, count):
    """The first sizes of the endless list of spares."""
    spares = axis.spares or [AUTO_TRACK]
    return [spares[place % len(spares)] for place in range(count)]


def negative_sizes(axis):
    """The spares aligned to end at the grid."""
    spares = axis.spares or [AUTO_TRACK]
    return [spares[(place - axis.negative) % len(spares)] for place in range(axis.negative)]


def all_tracks(axis, explicit):
    """Every track from the first negative one with, for each, whether `fit` wrote it."""
    template = written_out(axis)[:explicit]
    positive = spare_sizes(axis, explicit - len(template) + axis.positive)
    plain = lambda tracks: [(track, False) for track in tracks]
    return plain(negative_sizes(axis)) + template + plain(positive)


def collapsed_gutters(tracks, collapsed):
    """Which of the gutters collapse: one more than there are tracks."""
    gutters = [True] + collapsed[:]
    gutters[-1] = True
    if tracks and tracks[-1][1]:
        for place in range(len(tracks) - 1, -1, -1):
            gutters[place + 1] = True
            if not collapsed[place]:
                break
    return gutters


def holds_item(axis, place):
    return place in axis.items


# Document 02, Req 08: where each track came from, in its letters.

def written_sources(axis):
    """Of each track that the template writes out: an automatic repeat, or the template otherwise."""
    sources = []
    automatic = repetitions(axis)
    for component in counted_components(axis):
        count = min(written_tracks(component, automatic), FURTHEST)
        sources += ["a" if component.automatic() else "t"] * count
    return sources


def sources(axis, explicit):
    """Negative implicit, template or automatic repeat, area only, positive implicit; collapsing keeps them."""
    template = written_sources(axis)[:explicit]
    return ["n"] * axis.negative + template + ["g"] * (explicit - len(template)) + ["p"] * axis.positive


def record_sizes(axis, explicit):
    """The sizes of the 2N + 1 records, a gutter first and then a track and a gutter in turn; None where one is collapsed."""
    tracks = all_tracks(axis, explicit)
    collapsed = [fit and not holds_item(axis, place) for place, (_, fit) in enumerate(tracks)]
    gutters = collapsed_gutters(tracks, collapsed)
    gap = Track(axis.gap, axis.gap)
    sizes = [None if gutters[0] else gap]
    for place, (track, _) in enumerate(tracks):
        sizes += [None if collapsed[place] else track, None if gutters[place + 1] else gap]
    return sizes


def records(axis, explicit):
    """The lines of the 2N + 1 records."""
    source = sources(axis, explicit)
    sizes = record_sizes(axis, explicit)
    # One text for each track of the sheet, however often it is written.
    texts = {key: sizes_text(track is None, track) for key, track in {id(track): track for track in sizes}.items()}
    return [f"{index}\ttrack\t{texts[id(track)]}\t{source[index // 2]}" if index % 2 else f"{index}\tgutter\t{texts[id(track)]}\t-"
            for index, track in enumerate(sizes)]


def sizes_text(collapsed, track):
    if collapsed:
        return "y\tlen\t00000000\tlen\t00000000"
    low, high = track.minimum, track.maximum
    return f"n\t{low.kind}\t{low.bits:08x}\t{high.kind}\t{high.bits:08x}"


def record(index, kind, collapsed, track):
    """A record's line without its source."""
    return f"{index}\t{kind}\t{sizes_text(collapsed, track)}"


def is_record(line):
    return line[:1].isdigit()


def bare(line):
    """A line of the answer as the Rust has it: a record without its source."""
    return line.rpartition("\t")[0] if is_record(line) else line


def with_source(line, own):
    """The Rust's line, and after a record the source of the model's line."""
    return line + "\t" + own.rpartition("\t")[2] if is_record(line) else line
