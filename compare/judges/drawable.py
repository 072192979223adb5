"""Which panels CSS can write, so that a browser's answer is one to the same question. No two areas of a panel share a cell."""


def is_track(axis, track):
    """A minimum beside fit-content is not in CSS's grammar; a percentage is one of a definite size."""
    definite = axis.inner is not None and axis.rule == "max"
    fits = track.maximum.kind in ("fitl", "fitp")
    percentages = [size for size in (track.minimum, track.maximum) if size.kind in ("pct", "fitp")]
    return (not fits or track.minimum.kind == "auto") and (definite or not percentages)


def is_axis(axis):
    tracks = [track for component in axis.components for track in component.tracks]
    definite = axis.inner is not None and axis.rule == "max"
    return all(is_track(axis, track) for track in tracks + axis.spares) and (definite or axis.gap.kind == "len")


def is_end(end):
    """CSS has no line 0 and no plain span of 0."""
    return end.kind not in ("line", "span") or end.number != 0


def drawable(panel):
    return all(map(is_axis, panel.axes.values())) \
        and all(is_end(end) for placement in panel.placements for end in (placement.start, placement.end))
