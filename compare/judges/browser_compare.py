"""Has browsers draw panels, and lays what they show beside the answers that are judged."""
import collections

import browser_own
import comparable
import drawing
import seen
from model import LETTERS


def drawings(asked):
    """The grids of a panel, none where it is refused: its lines, then each axis's tracks as the sheet and as the records have them. Of a
    picture that may be broken, that alone."""
    if asked.family == comparable.BROKEN:
        return [drawing.picture_drawing(asked)]
    if asked.answered.refused:
        return []
    drawn = [drawing.lines_drawing(asked)]
    for letter in LETTERS:
        way = drawing.way_of(asked, letter)
        drawn += [drawing.tracks_drawing(asked, letter, way), drawing.records_drawing(asked, letter, way)]
    return drawn + [drawing.cells_drawing(asked, packing) for packing in drawing.packings(asked)]


def findings(asked, shown, with_names):
    """Every question that a browser answers by what it shows of a panel's drawings."""
    if asked.family == comparable.BROKEN:
        return seen.picture_findings(asked, shown[0])
    if asked.answered.refused:
        return [seen.Finding("answer", "", None, asked.answered.refused, "a panel")]
    found = seen.line_findings(asked, shown[0], with_names)
    for place, letter in enumerate(LETTERS):
        found += seen.track_findings(asked, letter, drawing.way_of(asked, letter), *shown[1 + 2 * place:3 + 2 * place])
    for packing, cells in zip(drawing.packings(asked), shown[1 + 2 * len(LETTERS):]):
        found += seen.cell_findings(asked, packing, cells)
    return found


def shown_by(browser, drawn):
    """What a browser shows of the drawings of each panel, all on one page."""
    shown = iter(browser.show([text for of_panel in drawn for text in of_panel]))
    return [[next(shown) for _ in of_panel] for of_panel in drawn]


class Result:
    """What the browsers say of one panel: `differences` that nothing explains, and how often each explanation held."""

    def __init__(self):
        self.differences = []
        self.explained = collections.Counter()
        self.asked = collections.Counter()

    def add(self, asked, browser, finding, others):
        self.asked[finding.what] += 1
        if finding.ours == finding.seen:
            return
        own = browser_own.explanation(asked, browser.name, finding)
        confirmed = [other.get(finding.key()) for other in others]
        if own and all(one is not None and one.ours == one.seen for one in confirmed):
            self.explained[own + ("" if others else ", by its test alone")] += 1
        else:
            self.differences.append(f"{browser.name}: {finding}")


def compare(panels, browsers, with_names):
    """A result for each panel; a difference is a browser's own only where the other browser confirms the answer."""
    drawn = [[one.text() for one in drawings(asked)] for asked in panels]
    found = []
    for browser in browsers:
        shown = shown_by(browser, drawn)
        found.append([findings(asked, of_panel, with_names) for asked, of_panel in zip(panels, shown)])
    results = []
    for place, asked in enumerate(panels):
        result = Result()
        keyed = [{one.key(): one for one in by_browser[place]} for by_browser in found]
        for at, browser in enumerate(browsers):
            for finding in found[at][place]:
                result.add(asked, browser, finding, keyed[:at] + keyed[at + 1:])
        results.append(result)
    return results
