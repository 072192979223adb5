"""Makes panels, has browsers draw them and compares: `browser [--chromium PROGRAM] [--firefox PROGRAM] N SEED`."""
import argparse
import collections
import itertools
import signal
import sys

import browser_smallest
import browsers
import build
import comparable
import questions
from asked import Asked
from browser_compare import compare
from browser_planted import plant
from judged import Library, Program, judged
from model import Answer
from shrink import shrink

# So many differences are shrunk, each by so many tries.
SHRUNK = 2
TRIES = 300
# Panels on one page.
PAGE = 500


def arguments():
    parser = argparse.ArgumentParser(prog="compare/browser", description="Compare N made panels with what browsers draw.")
    parser.add_argument("--chromium", help="the program of Chromium (default: CHROMIUM, or chromium where it is found)")
    parser.add_argument("--firefox", help="the program of Firefox (default: FIREFOX, or firefox-esr where it is found)")
    parser.add_argument("--panel", help="the panel program (default: PANEL, or target/bin/panel where it is)")
    parser.add_argument("--library", help="the static library (default: LIBRARY, or target/staticlib/libpalgwern.a where it is)")
    parser.add_argument("--family", choices=comparable.FAMILIES, help="only panels of this family")
    parser.add_argument("--planted", action="store_true", help="plant wrong readings and show that at most N panels find each")
    parser.add_argument("--own", action="store_true", help="draw the smallest sheet of each difference that is a browser's own")
    parser.add_argument("n", type=int, nargs="?", default=0)
    parser.add_argument("seed", type=int, nargs="?", default=0)
    return parser.parse_args()


class Answers:
    """The panel program and the library, asked together: the library's answer where it is built, else the program's."""

    def __init__(self, panel, library):
        self.judged = judged(panel, library)
        if not self.judged:
            raise build.CannotCompare("no comparison: neither the panel program nor the library is built")
        self.library = self.judged[-1] if isinstance(self.judged[-1], Library) else None

    def lines(self, sheet, calls):
        """The lines of the answer, and the difference between the two where both are asked."""
        state = Answer(sheet, calls).state
        rows = questions.browser_rows(state) if state else []
        answers = [one.sheet_answer(sheet, calls, rows) if isinstance(one, Library) else one.sheet_answer(sheet, calls) for one in self.judged]
        return answers[-1], (program_difference(*answers, calls) if len(answers) == 2 else None)

    def made(self, made):
        """A made panel; its calls are left out where there is no library to make them."""
        sheet, calls, family = made
        return sheet, (calls if self.library else []), family

    def close(self):
        for one in self.judged:
            one.close()


def program_difference(program, library, calls):
    """The program makes no entry: with calls its sizes and records alone are the library's."""
    words = ("size",) if calls else ("size", "place", "cell\t", "refused")
    both = ([line for line in lines if line[:1].isdigit() or line.startswith(words)] for lines in (program, library))
    for own, other in itertools.zip_longest(*both):
        if own != other:
            return f"the panel program answers {own!r}, the library {other!r}"
    return None


def ask(answers, made, number):
    """A panel with its answer, and how the program and the library differ in it."""
    made = answers.made(made)
    lines, difference = answers.lines(*made[:2])
    return Asked(number, made, lines), difference


def smaller(answers, asked, differences, drawn_by):
    """The panel shrunk as long as a browser that differs still does, with its differences."""
    blamed = [browser for browser in drawn_by if any(line.startswith(browser.name) for line in differences)]
    family = comparable.FAMILIES[asked.family]
    best, tries = [(asked, differences)], iter(range(TRIES))

    def differs(sheet, calls):
        if next(tries, None) is None or not comparable.comparable(Answer(sheet, calls), family):
            return False
        other, between = ask(answers, (sheet, calls, asked.family), asked.number)
        found = compare([other], blamed, answers.library is not None)[0].differences + ([between] if between else [])
        if found:
            best.append((other, found))
        return bool(found)

    shrink(asked.sheet, asked.calls, differs)
    return best[-1]


def print_panel(asked, differences):
    print(f"difference at panel {asked.number} ({asked.family}):")
    for difference in differences:
        print("  " + difference)
    for line in asked.sheet.decode("latin-1").splitlines():
        print("    " + line)
    for letter, line, name in asked.calls:
        print(f"    enter\t{letter}\t{line}\t{name.decode('latin-1')}")


def run(options, drawn_by):
    answers = Answers(options.panel, options.library)
    totals, explained, differing = collections.Counter(), collections.Counter(), 0
    for first in range(0, options.n, PAGE):
        numbers = range(first, min(options.n, first + PAGE))
        asked = [ask(answers, comparable.make(options.seed, number, options.family), number) for number in numbers]
        results = compare([panel for panel, _ in asked], drawn_by, answers.library is not None)
        for (panel, between), result in zip(asked, results):
            totals += result.asked
            explained += result.explained
            differences = result.differences + ([between] if between else [])
            if differences:
                differing += 1
                small = smaller(answers, panel, differences, drawn_by) if differing <= SHRUNK else (panel, differences)
                print_panel(*small)
    answers.close()
    print_totals(totals, explained, drawn_by, answers)
    print(f"{options.n} panels compared, {differing} differences")
    return 1 if differing else 0


def print_totals(totals, explained, drawn_by, answers):
    for what, count in sorted(totals.items()):
        print(f"{count:8} answers compared: {what}")
    for name, count in sorted(explained.items()):
        print(f"{count:8} explained: {name}")
    names = {one.name for one in answers.judged}
    for one in (Program, Library):
        print(f"{'with' if one.name in names else 'without'} the {one.name}")
    for browser in drawn_by:
        print(f"drawn by {browser.name} {browser.version}")


def main():
    options = arguments()
    if options.n < 1 and not options.own:
        raise build.CannotCompare("no comparison: N has to be at least 1")
    # A browser that runs is closed also where this program is ended.
    signal.signal(signal.SIGTERM, lambda *_: sys.exit(1))
    drawn_by = browsers.at_hand(options.chromium, options.firefox)
    try:
        if options.own:
            return browser_smallest.show(drawn_by)
        return plant(options, drawn_by) if options.planted else run(options, drawn_by)
    finally:
        for browser in drawn_by:
            browser.close()


if __name__ == "__main__":
    build.exit_with(main)
