"""A panel's names, sizes, templates, areas and placements as CSS writes them."""
import re

# Every name of a panel begins with this in CSS, so that none is a word of CSS, and ours can't be one of its names.
MARK = "n"
# Names that stand at both ends of a drawn template, to find it in a list of tracks.
FIRST, LAST = "o", "e"
# The size of every track where only lines are drawn: a box in pixels is one in lines.
UNIT = "1px"
PLAIN_BYTE = re.compile(r"[A-Za-z0-9-]")
ESCAPED_BYTE = re.compile(r"_([0-9a-f]{2})")
KEYWORDS = {"auto": "auto", "min": "min-content", "max": "max-content"}
# The properties of an axis, drawn as columns or as rows.
PROPERTIES = {
    "columns": {"template": "grid-template-columns", "spares": "grid-auto-columns", "gap": "column-gap",
                "start": "grid-column-start", "end": "grid-column-end", "size": "width", "least": "min-width", "content": "max-content"},
    "rows": {"template": "grid-template-rows", "spares": "grid-auto-rows", "gap": "row-gap",
             "start": "grid-row-start", "end": "grid-row-end", "size": "height", "least": "min-height", "content": "auto"},
}
OTHER_WAY = {"columns": "rows", "rows": "columns"}


def name(text):
    """A name of a panel as an identifier; `-start` and `-end` stay, and no two names become one."""
    return MARK + "".join(byte if PLAIN_BYTE.fullmatch(byte) else f"_{ord(byte):02x}" for byte in text)


def name_back(identifier):
    return ESCAPED_BYTE.sub(lambda found: chr(int(found[1], 16)), identifier[len(MARK):])


def number(value):
    """A number in decimal digits, to the last one."""
    digits = f"{value:.60f}".rstrip("0")
    return digits.rstrip(".") or "0"


def pixels(value):
    return number(value) + "px"


def size(one):
    """A size that is no fit-content."""
    if one.kind == "len":
        return pixels(one.value())
    if one.kind == "pct":
        return percentage(one)
    return number(one.value()) + "fr" if one.kind == "fr" else KEYWORDS[one.kind]


def percentage(one):
    return number(one.value() * 100) + "%"


def track(sizes):
    """A track size; beside fit-content CSS has no minimum but auto."""
    low, high = sizes.minimum, sizes.maximum
    if high.kind in ("fitl", "fitp"):
        return f"fit-content({pixels(high.value()) if high.kind == 'fitl' else percentage(high)})"
    return size(low) if low == high else f"minmax({size(low)},{size(high)})"


def name_set(texts, own=()):
    """A set of names, ours after them; nothing where it is empty."""
    identifiers = [*map(name, texts), *own]
    return [f"[{' '.join(identifiers)}]"] if identifiers else []


def between(sets, parts, first=(), last=()):
    """Parts with the name sets before, between and after them, and our own names at the two ends."""
    words = name_set(sets[0], first)
    for place, (part, after) in enumerate(zip(parts, sets[1:]), start=1):
        words += [part] + name_set(after, last if place == len(parts) else ())
    return " ".join(words)


def bounded(sets, parts):
    """A template of parts between our two names; without parts the names alone, which are no template."""
    return between(sets, parts, [FIRST], [LAST]) if parts else between(sets, parts) or "none"


def repeat(component, written, count=None):
    """A repeat with its tracks as `written` writes them, the count as it is or another."""
    times = count or {"fill": "auto-fill", "fit": "auto-fit"}.get(component.count, component.count)
    return f"repeat({times},{between(component.sets, list(map(written, component.tracks)))})"


def template(axis, written=track, automatic=None):
    """The template of an axis; `written` writes its tracks, `automatic` an automatic repeat otherwise."""
    parts = []
    for component in axis.components:
        if component.count is None:
            parts.append(written(component.tracks[0]))
        else:
            parts.append(repeat(component, written, automatic if component.automatic() else None))
    return bounded(axis.sets, parts)


def spares(axis):
    return " ".join(map(track, axis.spares)) or "auto"


def picture(rows, way):
    """A picture as it is written, dots as many as there are; where columns lie down, its columns as rows."""
    rows = rows if way == "columns" else list(zip(*rows))
    return " ".join(f"'{' '.join(name(word) if word.strip('.') else word for word in words)}'" for words in rows)


def areas(panel, way):
    """The drawn areas as a picture of cells, its rows the panel's rows or, where columns lie down, its columns."""
    if panel.picture:
        return picture(panel.picture, way)
    letters = ("r", "c") if way == "columns" else ("c", "r")
    ends = [max(area.edges(letter)[1] for area in panel.areas.values()) for letter in letters]
    cells = [["."] * (ends[1] - 1) for _ in range(ends[0] - 1)]
    for text, area in panel.areas.items():
        down, across = (area.edges(letter) for letter in letters)
        for line in range(*down):
            for cell in range(*across):
                cells[line - 1][cell - 1] = name(text)
    return " ".join(f"'{' '.join(line)}'" for line in cells)


def end(one):
    """One end of a placement; a named span of 0 is read as 1."""
    if one.kind == "line":
        return str(one.number)
    if one.kind == "named":
        return f"{one.number} {name(one.name)}" if one.number else name(one.name)
    if one.kind == "span":
        return f"span {one.number}"
    return f"span {max(1, one.number)} {name(one.name)}" if one.kind == "nspan" else "auto"


def style(declarations):
    """Declarations as a style, none of it left open."""
    return ";".join(f"{prop}:{value}" for prop, value in declarations.items())
