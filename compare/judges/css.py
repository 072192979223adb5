"""CSS's own counting, written from css-grid.md and apart from `rules`.

Lines have positions here: 0 at the start edge of the explicit grid, `explicit` at its end edge.
Lines are walked one by one; each line is held within 10,000 of the first as it is found."""

from dataclasses import replace

FURTHEST = 10000


def book(axis, repetitions, entered):
    """The name book of an axis: each name of what counts as its template on line 1 plus the tracks before it, then the entries."""
    axis = counted(axis)
    lines = []
    tracks = 0
    for place, names in enumerate(axis.sets):
        lines += [(1 + tracks, name) for name in names]
        if place < len(axis.components):
            component = axis.components[place]
            for _ in range(times(component, repetitions)):
                for inside, inner_names in enumerate(component.sets):
                    lines += [(1 + tracks + inside, name) for name in inner_names]
                tracks += len(component.tracks)
    return lines + entered


def times(component, repetitions):
    if component.count is None:
        return 1
    return repetitions if component.automatic() else component.count


def counted(axis):
    """The axis with what counts as its template: "otherwise the declaration is invalid, and the template counts as none"."""
    return axis if template_is_valid(axis) else replace(axis, components=[], sets=[[]])


def template_is_valid(axis):
    """"A repeat has at least one track, a written count is at least 1, and names without any track are no template"; "at most one
    automatic repeat in a template, and then every track in the template has a fixed part". An empty template without names is valid."""
    components = axis.components
    if not components:
        return not axis.sets[0]
    if any(len(component.tracks) == 0 or component.count == 0 for component in components):
        return False
    automatic = [component for component in components if component.automatic()]
    if not automatic:
        return True
    fixed = all(track.minimum.kind in ("len", "pct") or track.maximum.kind in ("len", "pct")
                for component in components for track in component.tracks)
    return len(automatic) == 1 and fixed


def writes_in_bounds(axis, repetitions):
    """Each repeat at least once, at most 10,000 tracks in all."""
    axis = counted(axis)
    counts = [times(component, repetitions) for component in axis.components]
    tracks = sum(count * len(component.tracks) for count, component in zip(counts, axis.components))
    return all(count >= 1 for count in counts) and tracks <= FURTHEST


class Lines:
    """Which lines of an axis bear which names."""

    def __init__(self, named, areas, letter, explicit):
        self.explicit = explicit
        self.positions = {}
        for line, name in named:
            self.positions.setdefault(name, set()).add(line - 1)
        for area, drawn in areas.items():
            for suffix, line in zip(("-start", "-end"), drawn.edges(letter)):
                self.positions.setdefault(area + suffix, set()).add(line - 1)

    def bearing(self, name):
        return self.positions.get(name, set())

    def are_explicit(self, name):
        return all(0 <= position <= self.explicit for position in self.bearing(name))

    def count_on(self, name, after, number, step):
        """Walk from the line after `after` (step 1) or before it (step -1) until `number` lines have
        the name; implicit lines on the side of the search have every name."""
        bearing = self.bearing(name)
        for position in range(after + step, FURTHEST * step, step):
            implicit = position > self.explicit if step > 0 else position < 0
            if implicit or position in bearing:
                number -= 1
                if number == 0:
                    return position
        return FURTHEST * step

    def named_line(self, name, number, suffix):
        """A name with a number, or alone: then the first line of the area's edge comes first."""
        if number == 0:
            edge = self.bearing(name + suffix)
            if edge:
                return max(-FURTHEST, min(FURTHEST, min(edge)))
            number = 1
        if number > 0:
            return self.count_on(name, -1, number, 1)
        return self.count_on(name, self.explicit + 1, -number, -1)

    def written_line(self, number):
        position = number - 1 if number > 0 else self.explicit + 1 + number
        return max(-FURTHEST, min(FURTHEST, position))

    def line_of(self, end, suffix):
        """The position of an end that is a line, None for the other kinds."""
        if end.kind == "line":
            return self.written_line(end.number)
        if end.kind == "named":
            return self.named_line(end.name, end.number, suffix)
        return None

    def resolve(self, placement):
        """The positions of named lines and of named spans beside a line, None for all else."""
        start = self.line_of(placement.start, "-start")
        end = self.line_of(placement.end, "-end")
        counted = [start if placement.start.kind == "named" else None,
                   end if placement.end.kind == "named" else None]
        if placement.start.kind == "nspan" and end is not None:
            counted[0] = self.count_on(placement.start.name, end, max(1, placement.start.number), -1)
        if placement.end.kind == "nspan" and start is not None:
            counted[1] = self.count_on(placement.end.name, start, max(1, placement.end.number), 1)
        return counted

    def number_of(self, position):
        """A position as a grid line."""
        return position + 1 if position >= 0 else position - self.explicit - 1


def names_used(placement):
    """The names whose lines a placement looks at."""
    used = []
    for end in (placement.start, placement.end):
        if end.kind in ("named", "nspan"):
            used += [end.name, end.name + "-start", end.name + "-end"]
    return used


def writes_line_zero(placement):
    return any(end.kind == "line" and end.number == 0 for end in (placement.start, placement.end))


def template_tracks(axis, repetitions):
    """The tracks of what counts as the template in order with, for each, whether `fit` wrote it."""
    tracks = []
    for component in counted(axis).components:
        for _ in range(times(component, repetitions)):
            tracks += [(track, component.count == "fit") for track in component.tracks]
    return tracks


def first_pair(areas):
    """CSS 7.3: a cell bears at most one name. The first two areas (earlier, later) that have a cell in common, numbered from 1, by the
    later one and then by the earlier; zeros where none do. An area is its row start, row end, column start and column end.

    Of the cells that two areas share, the first lies where the rows of one and the columns of one start: only such cells are looked at."""
    pairs = set()
    for row in {area[0] for area in areas}:
        for column in {area[2] for area in areas}:
            holders = [number for number, area in enumerate(areas, start=1) if row in range(*area[:2]) and column in range(*area[2:])]
            pairs |= {(other, one) for one in holders for other in holders if one < other}
    later, earlier = min(pairs, default=(0, 0))
    return earlier, later


def picture_areas(rows):
    """CSS 7.3: "the cells of a name form one filled rectangle". The areas of a picture of equal rows by name, each its row start, row end,
    column start and column end, in order of first cell; None where there is a name whose cells form none.

    From its first cell on, a name's area goes as far right as the name does, and as far down; every cell of it has to bear the name, and
    no other cell."""
    height, width = len(rows), len(rows[0]) if rows else 0
    areas = {}
    for row in range(height):
        for column in range(width):
            name = rows[row][column]
            if name.strip(".") and not inside(areas.get(name), row + 1, column + 1):
                area = None if name in areas else area_from(rows, row, column, height, width)
                if area is None:
                    return None
                areas[name] = area
    return areas


def inside(area, row, column):
    """Whether a cell lies in an area."""
    return area is not None and row in range(*area[:2]) and column in range(*area[2:])


def area_from(rows, row, column, height, width):
    """The area of the name at its first cell, None where it isn't filled."""
    name = rows[row][column]
    right, down = column, row
    while right < width and rows[row][right] == name:
        right += 1
    while down < height and rows[down][column] == name:
        down += 1
    filled = all(rows[at][place] == name for at in range(row, down) for place in range(column, right))
    return (row + 1, down + 1, column + 1, right + 1) if filled else None


def area_tracks(panel, letter):
    """The tracks that the areas span; a picture has as many rows as lines of words, and as many columns as a line has words, empty ones too."""
    spanned = max((area.edges(letter)[1] - 1 for area in panel.areas.values()), default=0)
    drawn = len(panel.picture) if letter == "r" else max(map(len, panel.picture), default=0)
    return max(spanned, drawn)


def implicit_size(axis, place):
    """The size of the track at a place after the template's end: the list for implicit tracks, over and over; None for auto."""
    return axis.spares[place % len(axis.spares)] if axis.spares else None


class Sources:
    """Where each record comes from: m implicit tracks, then the explicit grid, which is the larger of the template's tracks and the
    areas', then implicit tracks again."""

    def __init__(self, axis, repetitions, explicit):
        self.first = axis.negative
        self.end = axis.negative + explicit
        # One past the last track that each component writes, and whether it is an automatic repeat.
        self.written = []
        end = self.first
        for component in counted(axis).components:
            end += times(component, repetitions) * len(component.tracks)
            self.written.append((end, component.count in ("fill", "fit")))

    def of_record(self, index):
        return "-" if index % 2 == 0 else self.of_track(index // 2)

    def of_track(self, place):
        if place < self.first:
            return "n"
        if place >= self.end:
            return "p"
        for end, automatic in self.written:
            if place < end:
                return "a" if automatic else "t"
        return "g"


def gutters_fall_into_one(records):
    """Whether just one gutter is left between two neighbouring open tracks, and none at the edges.

    `records` are record lines; collapsed tracks take their gutters with them as CSS has it."""
    open_gutters = 0
    seen_track = False
    for line in records:
        _, kind, collapsed = line.split("\t", 3)[:3]
        if collapsed == "y":
            continue
        if kind == "gutter":
            open_gutters += 1
            continue
        if open_gutters != (1 if seen_track else 0):
            return False
        seen_track, open_gutters = True, 0
    return open_gutters == 0


def whole_number(size, inner):
    """A fixed size as a whole number, None where it is no whole number."""
    value = size.value() * (inner if size.kind == "pct" else 1)
    return int(value) if value == int(value) else None


def whole_measures(axis):
    """The measure of each track by component, and the gap, as whole numbers; None where one is not."""
    def measure(track):
        sizes = [whole_number(size, axis.inner) for size in (track.maximum, track.minimum)
                 if size.kind in ("len", "pct")]
        return None if None in sizes else max(sizes)
    measures = [[measure(track) for track in component.tracks] for component in axis.components]
    gap = whole_number(axis.gap, axis.inner)
    if gap is None or any(size is None for sizes in measures for size in sizes):
        return None
    # "A track in the repeat may be floored; 1 px is suggested."
    floored = [[max(size, 1) for size in sizes] if component.automatic() else sizes
               for component, sizes in zip(axis.components, measures)]
    return floored, gap


def whole_repetitions(axis):
    """CSS's number of repetitions in whole-number arithmetic; None where this doesn't apply.

    It applies to a valid template with an automatic repeat and an inner size, where every size is a
    whole number and the grid is so small that no f32 is rounded and nothing is held."""
    found = whole_measures(axis) if axis.inner == int(axis.inner) else None
    if found is None:
        return None
    measures, gap = found

    def tracks(number):
        return sum(times(component, number) * len(component.tracks) for component in axis.components)

    def size(number):
        used = sum(times(component, number) * sum(sizes) for component, sizes in zip(axis.components, measures))
        return used + (tracks(number) - 1) * gap

    one_more = size(2) - size(1)
    if size(1) > 65535:
        return None
    space = max(0, int(axis.inner) - size(1))
    number = 1 + (space // one_more if axis.rule == "max" else -(-space // one_more))
    return number if tracks(number) < FURTHEST and is_css_number(axis, size, number) else None


def is_css_number(axis, size, number):
    """The largest number that doesn't overflow (1 where even one does), or the smallest that reaches."""
    if axis.rule == "max":
        right = size(number + 1) > axis.inner and (number == 1 or size(number) <= axis.inner)
    else:
        right = size(number) >= axis.inner and (number == 1 or size(number - 1) < axis.inner)
    assert right, "whole-number division missed CSS's number"
    return right
