"""The grids that are drawn of a panel, as CSS.

Lines are drawn with every track one pixel wide, so that an item's box says its lines; tracks with their own sizes, once
as the template has them and once as the panel's records have them, and both have to look the same."""
import css
import css_text
import model
import placing
from css_text import OTHER_WAY, PROPERTIES, UNIT
from rules import grid_line

# Text whose narrowest and widest line differ, so that every keyword gives a track another width.
CONTENT = "ii i"
# More records than this are not drawn: Firefox has no more tracks.
MOST_RECORDS = 9999
AREAS = "grid-template-areas"
FLOWS = {placing.SPARSE: "row", placing.DENSE: "row dense"}


class Drawing:
    """A grid with its items, each a style; `content` is the text of every item."""

    def __init__(self, style, items, content=""):
        self.style = style
        self.items = items
        self.content = content

    def text(self):
        items = [f'<p style="{css_text.style(item)}">{self.content}</p>' for item in self.items]
        return f'<div style="{css_text.style(self.style)}">{"".join(items)}</div>'


def spot(way, start, end="span 1", beside=1):
    """A start and an end on one axis, the track after a line on the other."""
    own, other = PROPERTIES[way], PROPERTIES[OTHER_WAY[way]]
    return {own["start"]: start, own["end"]: end, other["start"]: beside, other["end"]: "span 1"}


# Lines.

WAYS = {"c": "columns", "r": "rows"}


def written_out(asked, letter):
    """An axis on which entries were made: each explicit track by itself, the names of the book on their lines."""
    book = asked.book(letter)
    # No fewer tracks than the names need, whatever the answer says.
    tracks = max([asked.answered.explicit[letter]] + [line - 1 for line, _ in book])
    sets = [[] for _ in range(tracks + 1)]
    for line, text in book:
        sets[line - 1].append(text)
    return css_text.bounded(sets, [UNIT] * tracks)


def unit_axis(asked, letter):
    """An axis with tracks of one unit, so wide that an automatic repeat is written as often as the panel says."""
    own = PROPERTIES[WAYS[letter]]
    axis = asked.panel.axes[letter]
    written = asked.has_entries(letter)
    # An invalid template is drawn as it stands: the browser has to drop it.
    plain = css_text.template(axis) if asked.is_invalid(letter) else css_text.template(axis, lambda track: UNIT, "auto-fill")
    template = written_out(asked, letter) if written else plain
    return {own["template"]: template, own["spares"]: UNIT, own["size"]: f"{asked.template_tracks(letter)}px"}


def dropped_in_lines(asked):
    """The declarations of the drawing of lines that a browser has to drop."""
    return [PROPERTIES[WAYS[letter]]["template"] for letter in WAYS if asked.is_invalid(letter) and not asked.has_entries(letter)]


def dropped_in_tracks(asked, letter, way):
    """Those of the drawing of an axis's tracks."""
    return [PROPERTIES[way]["template"]] if asked.is_invalid(letter) else []


def area_style(asked, way):
    return {AREAS: css_text.areas(asked.panel, way)} if asked.panel.areas or asked.panel.picture else {}


def cells_drawing(asked, packing):
    """The cells alone, each an item: the grid has only the explicit columns, and its rows grow."""
    style = {**unit_axis(asked, "c"), **unit_axis(asked, "r"), **area_style(asked, "columns"), "grid-auto-flow": FLOWS[packing]}
    items = [{own: css_text.end(end) for half, way in zip(halves, WAYS.values())
              for own, end in ((PROPERTIES[way]["start"], half.start), (PROPERTIES[way]["end"], half.end))} for halves in asked.state.halves()]
    return Drawing(style, items)


def packings(asked):
    """Those that are drawn: sparse, and dense where the answer was asked for it."""
    return [placing.SPARSE] + ([placing.DENSE] if asked.answered.dense is not None else []) if asked.panel.cells else []


def picture_drawing(asked):
    """A picture alone, good or broken, as its rows stand in the sheet: a browser has to drop a broken one."""
    return Drawing({AREAS: css_text.picture(asked.rows(), "columns")}, [])


def dropped_in_picture(asked):
    return [AREAS] if asked.answered.refuses_picture() else []


def lines_drawing(asked):
    """Items: one on the first lines, one on each last line, and one for each placement, beside a line of its own so that
    none is in the way of another."""
    style = {**unit_axis(asked, "c"), **unit_axis(asked, "r"), **area_style(asked, "columns")}
    items = [spot("columns", 1), spot("columns", -1), spot("rows", -1)]
    items += [spot(WAYS[one.axis], css_text.end(one.start), css_text.end(one.end), line)
              for line, one in enumerate(model.written_placements(asked.state), start=1)]
    return Drawing(style, items)


# Tracks.

def inner_style(axis, way):
    """The inner size: the size itself by rule max, a least size by rule min."""
    own = PROPERTIES[way]
    if axis.inner is None:
        return {own["size"]: own["content"]}
    if axis.rule == "min":
        return {own["size"]: own["content"], own["least"]: css_text.pixels(axis.inner)}
    return {own["size"]: css_text.pixels(axis.inner)}


def automatic_tracks(asked, letter):
    """The tracks that an automatic repeat wrote, each with whether it was `fit`, from the first negative one."""
    axis = css.counted(asked.panel.axes[letter])
    tracks, at = {}, axis.negative
    for component in axis.components:
        count = css.times(component, asked.answered.repetitions[letter]) * len(component.tracks)
        if component.automatic():
            tracks = {place: component.count == "fit" for place in range(at, at + count)}
        at += count
    return tracks


def tracks_with_items(asked, letter):
    """The tracks that are marked, all that no automatic repeat wrote, and every second one of a `fill`: the others have
    to stay open without an item, and Chromium shares out space among empty tracks side by side in its own way."""
    automatic = automatic_tracks(asked, letter)
    marked = asked.panel.axes[letter].items
    holds = lambda place: place in marked or place not in automatic or (not automatic[place] and place % 2 == 0)
    return list(filter(holds, range(asked.answered.tracks(letter))))


def tracks_drawing(asked, letter, way):
    """An axis as the sheet has it, drawn as columns or rows."""
    axis = asked.panel.axes[letter]
    own = PROPERTIES[way]
    turned = way if letter == "c" else OTHER_WAY[way]
    style = {own["template"]: css_text.template(axis), own["spares"]: css_text.spares(axis), own["gap"]: css_text.size(axis.gap),
             **inner_style(axis, way), **area_style(asked, turned)}
    explicit = asked.answered.explicit[letter]
    items = [spot(way, grid_line(place - axis.negative, explicit)) for place in tracks_with_items(asked, letter)]
    return Drawing(style, items, CONTENT)


def draws_records(asked, letter):
    return len(asked.answered.records[letter]) <= MOST_RECORDS


def records_drawing(asked, letter, way):
    """The same axis as the panel's records have it, each gutter and each track by itself; an empty grid where there are too many."""
    if not draws_records(asked, letter):
        return Drawing({}, [])
    tracks = " ".join(css_text.track(track) for _, track in asked.answered.records[letter])
    style = {PROPERTIES[way]["template"]: tracks, **inner_style(asked.panel.axes[letter], way)}
    items = [spot(way, 2 * place + 2) for place in tracks_with_items(asked, letter)]
    return Drawing(style, items, CONTENT)


def way_of(asked, letter):
    """How an axis is drawn: as rows where the repetitions have no definite size to go by, else one way or the other."""
    axis = asked.panel.axes[letter]
    automatic = any(component.automatic() for component in axis.components)
    if automatic and (axis.inner is None or axis.rule == "min"):
        return "rows"
    return "columns" if (asked.number + (letter == "r")) % 2 else "rows"
