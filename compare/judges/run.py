"""Makes sheets, asks the judges and compares: `run [--rust FOLDER] [--panel PROGRAM] [--library FILE] N SEED`."""
import argparse
import collections

import acts
import build
import history_compare
import maker
import model
from compare import Rust, any_order, columns_alone, compare, compare_lines, first_difference
from judged import Library, Program, judged
from shrink import shrink

SHRUNK = 5
# Every so many sheets the claims about two runs are tested too.
EVERY = 8


def arguments():
    parser = argparse.ArgumentParser(prog="compare/run", description="Compare the judges on N made sheets.")
    parser.add_argument("--rust", help="folder of the unchanged Rust files (default ../shared/docs/src)")
    parser.add_argument("--panel", help="the panel program (default: PANEL, or target/bin/panel where it is)")
    parser.add_argument("--library", help="the static library (default: LIBRARY, or target/staticlib/libpalgwern.a where it is)")
    parser.add_argument("--family", choices=maker.WEIGHTS, help="only sheets of this family")
    parser.add_argument("n", type=int)
    parser.add_argument("seed", type=int)
    return parser.parse_args()


def print_small(sheet, calls, differences):
    """A shrunk difference, as a sheet and its calls."""
    for difference in differences:
        print("  " + difference)
    for line in sheet.decode("latin-1").splitlines():
        print("    " + line)
    for letter, line, name in calls:
        print(f"    enter\t{letter}\t{line}\t{name.decode('latin-1')}")


def show(number, made, rust, asked):
    """Print a difference, shrunk. A refusal that a damage was made for is shown as it is."""
    sheet, calls, expected, family = made
    result = compare_made(number, made, rust, asked)
    print(f"difference at sheet {number} ({family}):")
    if not any(difference.startswith("damage") for difference in result.differences):
        again = lambda *other: compare_made(number, (*other, None, family), rust, asked)
        sheet, calls = shrink(sheet, calls, lambda *other: bool(again(*other).differences))
        result = again(sheet, calls)
    print_small(sheet, calls, result.differences)


def compare_conversions(rust, seed):
    """Every line's conversion for a few explicit counts."""
    found = [compare_lines(rust, explicit) for explicit in (0, 3, 10000, seed * 7919 % 10001)]
    for difference in filter(None, found):
        print("difference: " + difference)
    return sum(difference is not None for difference in found)


def history_differences(sheet, rust, asked):
    """Acts on the panel of an accepted sheet: the model beside plain sheets and the Rust, and the library beside the model."""
    answer = model.Answer(sheet)
    made = None if answer.refused else acts.made(sheet, answer.state)
    if made is None:
        return []
    own = acts.answer_lines(sheet, *made)
    beside = [first_difference(f"{one.name}: history", own, one.history_answer(sheet, *made)) for one in asked if isinstance(one, Library)]
    return list(filter(None, [history_compare.difference(sheet, *made, rust), *beside]))


def compare_made(number, made, rust, asked):
    """One made sheet, now and then with the claims about two runs and with acts on its panel."""
    result = compare(*made[:2], rust, asked, made[2])
    if number % EVERY == 0:
        result.differences += filter(None, [columns_alone(*made[:2]), any_order(*made[:2])])
    if number % EVERY == 1 or made[3] == "history":
        result.differences += history_differences(made[0], rust, asked)
    return result


def run(options):
    rust = Rust(build.build(options.rust))
    asked = judged(options.panel, options.library)
    kinds = collections.Counter()
    differing = compare_conversions(rust, options.seed)
    for number in range(options.n):
        made = maker.make(options.seed, number, options.family)
        result = compare_made(number, made, rust, asked)
        kinds[result.kind] += 1
        kinds["entry calls accepted"] += result.numbers.count(0)
        kinds["entry calls refused"] += len(result.numbers) - result.numbers.count(0)
        if result.differences:
            differing += 1
            if differing <= SHRUNK:
                show(number, made, rust, asked)
    for process in [rust, *asked]:
        process.close()
    print_kinds(kinds, asked)
    print(f"{options.n} sheets compared, {differing} differences")
    return 1 if differing else 0


def print_kinds(kinds, asked):
    """How many sheets there were of each kind, and what was judged."""
    for kind, count in sorted(kinds.items()):
        print(f"{count:8} {kind}")
    names = {one.name for one in asked}
    for one in (Program, Library):
        print(f"{'with' if one.name in names else 'without'} the {one.name}")


def main():
    options = arguments()
    if options.n < 1:
        raise build.CannotCompare("no comparison: N has to be at least 1")
    return run(options)


if __name__ == "__main__":
    build.exit_with(main)
