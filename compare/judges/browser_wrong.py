"""Wrong readings for browsers to find: in the answers, each put into the model, and in the drawings."""
from dataclasses import replace

import answered
import css_text
import drawing
import model
import rules
import wrong
from rules import Names

# Readings of documents 01 and 02 that the comparison with the Rust plants too, and that a panel of a browser shows.
SHARED = [
    "negative spares aligned from the start",
    "a line counted twice where area and entry share it",
    "the drawn edge left out of a name's lines",
    "floor also for rule min",
    "the maximum not raised to the minimum",
    "no thin track raised",
    "the sum of a repetition raised instead of its tracks",
    "only tracks of 0 raised",
    "percentages not raised",
    "thin tracks not raised in the first repetition",
    "thin tracks outside the repeat raised",
    "thin gaps raised",
    "the records of thin tracks raised",
    "index 0 of a suffixed name is index 1",
    "index 0 takes the start edge at both ends",
    "the highest line of an edge wins",
    "names kept from the first entry only",
    "names kept from the columns only",
    "a name listed twice on a line",
    "tracks of areas after the positive ones",
    "the gutter before trailing collapsed tracks stays",
    "items counted from the first explicit track",
    "the width of a picture not counted",
    "the rows of a picture not counted",
]
# Readings of pictures that CSS's own words find there.
PICTURED = ["the box around a name's cells, filled or not", "a name again after a gap of rows", "rows and columns of a picture swapped"]


# In the answers.

def ceiling_by_max(value, rule):
    return right_whole_part(value, "min")


def gaps_left_out(axis):
    return 0.0


def one_gap_more(axis, repeat):
    return right_first_used(axis, repeat) + rules.gap_size(axis)


def next_index(self, name, index, end):
    return right_named_line(self, name, index + 1 if index > 0 else index, end)


def backward_from_before(self, name, last, index):
    """A negative index counted from the line before the last."""
    return right_backward(self, name, last - 1, index)


def span_on_its_line(self, name, number, line, which):
    """The line that a span counts from taken into the count."""
    return right_span_from(self, name, number, line - 1 if which == 1 else line + 1, which)


def areas_make_none(panel, letter):
    return 0


def all_fit_shut(axis, place):
    return False


def open_where_empty(axis, place):
    return True


def not_swapped(start, end):
    return start, (end - start or 1)


def equal_ends_kept(start, end):
    return min(start, end), abs(end - start)


def larger_span(start, end):
    """Of two spans the larger instead of the start's."""
    spans = [number for kind, number in (start, end) if kind == "span"]
    return (None, max(spans)) if len(spans) == 2 else right_item_between(start, end)


def quotient_cut(value, rule):
    """As Chromium has it."""
    return right_whole_part(value // (1 / 64) / 64, rule)


class BackFromBefore(Names):
    """Counting back as Firefox does."""

    def last_looked_at(self, last):
        first = super().last_looked_at(last)
        return first - 1 if first > self.template else first


def names_from_before(self, letter):
    names = BackFromBefore(self.entries[letter], self.panel.areas, letter, self.explicit[letter])
    names.template = rules.template_count(self.panel.axes[letter])
    return names


# In the drawings.

def fill_as_fit(component, written, count=None):
    return right_repeat(component, written, count or ("auto-fit" if component.automatic() else None))


def once_less(component, written, count=None):
    counted = count or (max(1, component.count - 1) if not component.automatic() else None)
    return right_repeat(component, written, counted)


def no_gap(asked, letter, way):
    drawn = right_tracks_drawing(asked, letter, way)
    drawn.style[css_text.PROPERTIES[way]["gap"]] = "0px"
    return drawn


def least_as_size(axis, way):
    return right_inner_style(replace(axis, rule="max"), way)


def area_one_on(panel, way):
    """Each area's columns one further on."""
    moved = {text: replace(area, column_start=area.column_start + 1, column_end=area.column_end + 1) for text, area in panel.areas.items()}
    return right_areas(replace(panel, areas=moved), way)


def rows_turned(rows, way):
    """Each row of a picture from its end on."""
    return right_picture([words[::-1] for words in rows], way)


def index_left_out(one):
    return right_end(replace(one, number=0) if one.kind == "named" else one)


def sign_left_out(one):
    return right_end(replace(one, number=abs(one.number)) if one.kind in ("named", "line") else one)


def span_of_any(one):
    return f"span {max(1, one.number)}" if one.kind == "nspan" else right_end(one)


def sets_in_repeats_left_out(component, written, count=None):
    return right_repeat(replace(component, sets=[[] for _ in component.sets]), written, count)


def spares_backwards(axis):
    return right_spares(replace(axis, spares=axis.spares[::-1]))


def item_one_on(asked, letter):
    """The marked tracks of `fit` one further on."""
    axis = asked.panel.axes[letter]
    moved = replace(axis, items={place + 1 for place in axis.items})
    return right_tracks_with_items(replaced_axis(asked, letter, moved), letter)


def replaced_axis(asked, letter, axis):
    other = object.__new__(type(asked))
    other.__dict__.update(asked.__dict__, panel=replace(asked.panel, axes={**asked.panel.axes, letter: axis}))
    return other


def minimum_alone(sizes):
    return right_track(replace(sizes, maximum=sizes.minimum))


right_whole_part = rules.whole_part
right_first_used = rules.first_used
right_named_line = Names.named_line
right_backward = Names.backward
right_span_from = Names.span_from
right_item_between = answered.item_between
right_repeat = css_text.repeat
right_areas = css_text.areas
right_picture = css_text.picture
right_end = css_text.end
right_spares = css_text.spares
right_track = css_text.track
right_inner_style = drawing.inner_style
right_tracks_drawing = drawing.tracks_drawing
right_tracks_with_items = drawing.tracks_with_items

# Each wrong reading: where it is put, and what.
READINGS = {
    **{name: wrong.FOUND_BY_THE_RUST[name] for name in SHARED},
    **{name: wrong.FOUND_BY_CSS[name] for name in PICTURED},
    "ceiling also for rule max": (rules, "whole_part", ceiling_by_max),
    "gaps left out of the count": (rules, "gap_size", gaps_left_out),
    "one gap more beside one repetition": (rules, "first_used", one_gap_more),
    "an index one too high": (Names, "named_line", next_index),
    "a negative index from the line before the last": (Names, "backward", backward_from_before),
    "a span's own line counted": (Names, "span_from", span_on_its_line),
    "areas make no explicit track": (rules, "area_count", areas_make_none),
    "every track of `fit` collapsed": (rules, "holds_item", all_fit_shut),
    "no track of `fit` collapsed": (rules, "holds_item", open_where_empty),
    "ends not swapped": (answered, "in_order", not_swapped),
    "equal ends kept": (answered, "in_order", equal_ends_kept),
    "the larger of two spans": (answered, "item_between", larger_span),
    "a quotient cut to 1/64 as by Chromium": (rules, "whole_part", quotient_cut),
    "counting back from before the edge as by Firefox": (model.State, "names", names_from_before),
    "drawn with `fit` for `fill`": (css_text, "repeat", fill_as_fit),
    "drawn with a count one less": (css_text, "repeat", once_less),
    "drawn without gaps": (drawing, "tracks_drawing", no_gap),
    "drawn with rule max for min": (drawing, "inner_style", least_as_size),
    "drawn with a picture's rows turned": (css_text, "picture", rows_turned),
    "drawn with areas one column on": (css_text, "areas", area_one_on),
    "drawn without the index": (css_text, "end", index_left_out),
    "drawn without the sign": (css_text, "end", sign_left_out),
    "drawn without the name of a span": (css_text, "end", span_of_any),
    "drawn without the names in repeats": (css_text, "repeat", sets_in_repeats_left_out),
    "drawn with the spares backwards": (css_text, "spares", spares_backwards),
    "drawn with the items one track on": (drawing, "tracks_with_items", item_one_on),
    "drawn with each minimum for the maximum": (css_text, "track", minimum_alone),
}

# What one browser does too, so that only the other can find it.
FOUND_BY_ONE = {
    "a quotient cut to 1/64 as by Chromium": "Firefox",
    "counting back from before the edge as by Firefox": "Chromium",
}
