"""What a browser shows, turned back into answers and laid beside those that are judged."""
import re
from dataclasses import dataclass

import css_text
import drawing
import placing
from model import LETTERS

LISTED = re.compile(r"\[([^]]*)\]|(\S+)px")
# Boxes are told in f32: each number is the nearest one that is whole in 1/64 or in 1/60 of a pixel.
PARTS = 960


@dataclass
class Finding:
    """One question: the answer that is judged, and the browser's."""
    what: str
    letter: str
    index: int
    ours: object
    seen: object
    # Where the browser put an item whose start it found itself.
    start: object = None

    def key(self):
        return self.what, self.letter, self.index

    def __str__(self):
        return f"{self.what} {self.letter}{'' if self.index is None else f' {self.index}'}: answered {self.ours}, shown {self.seen}"


def listing(text):
    """The sizes of the tracks and, for each line, its names, from a computed style."""
    sizes, names = [], [[]]
    for found in LISTED.finditer(text):
        if found[2] is None:
            names[-1] += found[1].split()
        else:
            sizes.append(float(found[2]))
            names.append([])
    return sizes, names


def line_of(names, sought):
    """The line that bears one of our own names, counted from 0; None where none does."""
    return next((line for line, names_of in enumerate(names) if sought in names_of), None)


def dropped(shown, expected=()):
    """The declarations that a browser doesn't read: those of invalid templates have to be, any other is a fault of the drawing."""
    return [Finding("dropped declarations", "", None, list(expected), shown["unread"])] if expected or shown["unread"] else []


def differ(findings):
    return any(one.ours != one.seen for one in findings)


# Lines.

def in_units(box, origin, way):
    """An item's start, from the item on the first lines, and its size."""
    at = 0 if way == "columns" else 1
    return box[at] - origin[at], box[at + 2]


def explicit_names(text, asked, letter):
    """The names of each explicit line, each once, without our own; no lists where no line has one."""
    _, names = listing(text)
    first = line_of(names, css_text.FIRST)
    if first is None:
        return []
    marked = [[css_text.name_back(name) for name in names_of if name.startswith(css_text.MARK)] for names_of in names[first:]]
    lists = [list(dict.fromkeys(names_of)) for names_of in marked][:asked.answered.explicit[letter] + 1]
    return lists if any(lists) else []


def line_findings(asked, shown, with_names):
    """The explicit counts first: where one differs, no other line can be told."""
    boxes = shown["boxes"]
    counts = []
    for place, letter in enumerate(LETTERS, start=1):
        last, _ = in_units(boxes[place], boxes[0], drawing.WAYS[letter])
        counts.append(Finding("explicit count", letter, None, asked.answered.explicit[letter], last))
    read = dropped(shown, drawing.dropped_in_lines(asked))
    if differ(read + counts):
        return read + counts
    findings = read + counts + [placed(asked, index, box, boxes[0]) for index, box in enumerate(boxes[3:])]
    if with_names:
        findings += [Finding("line names", letter, None, asked.answered.names[letter],
                             explicit_names(shown[drawing.WAYS[letter]], asked, letter)) for letter in LETTERS]
    return findings


def placed(asked, index, box, origin):
    """A placement's start and size in tracks; only the size where CSS finds the start."""
    letter = asked.answered.placements[index][0]
    ours = asked.answered.item(index)
    start, size = in_units(box, origin, drawing.WAYS[letter])
    return Finding("placement", letter, index, ours, (None if ours[0] is None else start, size), start)


# Cells.

def cell_findings(asked, packing, shown):
    """Where the cells land: their lines, from the first line of the grid, at which it begins."""
    boxes = [(left + 1, left + width + 1, top + 1, top + height + 1) for left, top, width, height in shown["boxes"]]
    ours = asked.answered.sparse if packing == placing.SPARSE else asked.answered.dense
    return dropped(shown) + [Finding(f"{packing} cells", "", None, ours, boxes)]


# Pictures.

def picture_findings(asked, shown):
    """Whether a picture is dropped, as one that is refused has to be."""
    return [Finding("picture", "", None, drawing.dropped_in_picture(asked), shown["unread"])]


# Tracks.

def repetitions_seen(asked, letter, tracks):
    """Repetitions from the tracks of a written template; None where they are no whole number."""
    repeat = asked.automatic(letter)
    outside = asked.template_tracks(letter) - asked.answered.repetitions[letter] * len(repeat.tracks)
    count, rest = divmod(tracks - outside, len(repeat.tracks))
    return None if rest else count


def template_findings(asked, letter, names):
    """Where the template begins and ends in the list of tracks: the implicit tracks before it, and its repetitions."""
    first, last = line_of(names, css_text.FIRST), line_of(names, css_text.LAST)
    if first is None or last is None:
        return []
    ends = Finding("template tracks", letter, None, asked.template_tracks(letter), last - first)
    if asked.automatic(letter):
        ends = Finding("repetitions", letter, None, asked.answered.repetitions[letter], repetitions_seen(asked, letter, last - first))
    return [ends, Finding("tracks before", letter, None, asked.panel.axes[letter].negative, first)]


def to_parts(number):
    return round(number * PARTS) / PARTS


def extents(boxes, way):
    """The start and size of each box."""
    at = 0 if way == "columns" else 1
    return [(to_parts(box[at]), to_parts(box[at + 2])) for box in boxes]


def looks(asked, letter, way, shown, written):
    """Tracks that collapsed, and every size and place beside those of the records."""
    sizes, records = (listing(one[way])[0] for one in (shown, written))
    ours = [place for place in range(len(sizes)) if asked.answered.is_collapsed(letter, place)]
    empty = [place for place, fit in drawing.automatic_tracks(asked, letter).items() if fit and place not in asked.panel.axes[letter].items]
    findings = [Finding("collapsed tracks", letter, None, ours, [place for place in empty if sizes[place] == 0])]
    if drawing.draws_records(asked, letter):
        findings.append(Finding("track sizes", letter, None, list(map(to_parts, records[1::2])), list(map(to_parts, sizes))))
        findings.append(Finding("track places", letter, None, extents(written["boxes"], way), extents(shown["boxes"], way)))
    return findings


def track_findings(asked, letter, way, shown, written):
    """Counts first: where one differs, nothing after it can be told. `written` shows the same axis as the records have it."""
    read = dropped(shown, drawing.dropped_in_tracks(asked, letter, way)) + dropped(written)
    sizes, names = listing(shown[way])
    counts = template_findings(asked, letter, names) + [Finding("tracks", letter, None, asked.answered.tracks(letter), len(sizes))]
    for told, one in enumerate(counts, start=1):
        if differ(read + [one]):
            return read + counts[:told]
    return read + counts + looks(asked, letter, way, shown, written)
