"""Has browsers draw the smallest sheet of each difference that is their own, and says whether it is still there."""
import browser_sheets
from browser_compare import compare
from browser_own import OWN
from browser_planted import modelled
from damage import sheet_of


def is_still_there(name, result):
    """Whether a sheet shows the difference, by its test, and nothing that is unexplained."""
    return any(explained.startswith(name) for explained in result.explained) and not result.differences


def show(drawn_by):
    panels = [modelled(number, (sheet_of(lines), [], "smallest")) for number, lines in enumerate(browser_sheets.SHEETS.values(), start=1)]
    gone = 0
    for name, result in zip(browser_sheets.SHEETS, compare(panels, drawn_by, True)):
        for browser in drawn_by:
            if name.startswith(browser.name):
                still = is_still_there(name, result)
                gone += not still
                print(f"{'still so' if still else 'NO LONGER'} | {browser.name} {browser.version} | {name}")
    without = {name for name, *_ in OWN} - set(browser_sheets.SHEETS)
    for name in sorted(without):
        print(f"NO SHEET | {name}")
    print(f"{len(browser_sheets.SHEETS)} differences of browsers, {gone} no longer there, {len(without)} without a sheet")
    return 1 if gone or without else 0
