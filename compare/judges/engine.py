"""Makes grids, has the examples of a layout engine and the Rust lay them out and compares: `engine [--rust FOLDER] [--library FILE] N SEED`."""
import argparse
import os
import shutil
import subprocess

import build
import layouts
from judged import LIBRARY, find

EXAMPLES = os.path.join(build.REPOSITORY, "bindings", "examples")
BINDINGS = os.path.join(build.REPOSITORY, "bindings")
# Grids of one process, and how many differences are shown.
BATCH = 500
SHOWN = 5


def arguments():
    parser = argparse.ArgumentParser(prog="compare/engine", description="Compare the examples of a layout engine on N made grids.")
    parser.add_argument("--rust", help="folder of the unchanged Rust files (default ../shared/docs/src)")
    parser.add_argument("--library", help="the static library (default: LIBRARY, or target/staticlib/libpalgwern.a where it is)")
    parser.add_argument("--record", action="store_true", help="write the Rust's answer to bindings/examples/engine.grids beside it")
    parser.add_argument("n", type=int, nargs="?", default=0)
    parser.add_argument("seed", type=int, nargs="?", default=0)
    return parser.parse_args()


def compiled(*words):
    done = subprocess.run(words, capture_output=True, text=True)
    if done.returncode != 0:
        raise build.CannotCompare(f"no comparison: {words[0]} failed: " + done.stderr.strip().splitlines()[0])


def examples(archive):
    """The command of the example in Rust and of the one in C, by what it is called."""
    if archive is None or not os.path.isfile(archive):
        raise build.CannotCompare("no comparison: the library is not there, `tools/make palgwern` writes it")
    for tool in ("rustc", "cc"):
        if shutil.which(tool) is None:
            raise build.CannotCompare(f"no comparison: {tool} is not at hand")
    out = os.path.join(build.TARGET, "engine")
    os.makedirs(out, exist_ok=True)
    module, in_rust, in_c = (os.path.join(out, name) for name in ("libpalgwern.rlib", "engine_rust", "engine_c"))
    folder, name = os.path.split(os.path.abspath(archive))
    build.rustc("--crate-type", "rlib", "--crate-name", "palgwern", os.path.join(BINDINGS, "palgwern.rs"), "-o", module)
    build.rustc("--extern", "palgwern=" + module, "-L", "native=" + folder, "-l", "static:+verbatim=" + name,
                os.path.join(EXAMPLES, "engine.rs"), "-o", in_rust)
    compiled("cc", "-std=gnu11", "-O2", "-I", BINDINGS, os.path.join(EXAMPLES, "engine.c"), archive, "-o", in_c)
    return {"the example in Rust": [in_rust], "the example in C": [in_c]}


def ask(command, text):
    """What a program prints."""
    done = subprocess.run(command, input=text.encode(), stdout=subprocess.PIPE)
    return done.stdout.decode() + (f"(ended with status {done.returncode})\n" if done.returncode else "")


def blocks(output):
    """The answers to grids, each as its lines."""
    return [block.splitlines() for block in ("\n" + output).split("\ngrid\n")[1:]]


def first_difference(own, rust):
    """The first line that differs, as both have it; None where none does."""
    if own == rust:
        return None
    at = next((at for at, (one, other) in enumerate(zip(own, rust)) if one != other), min(len(own), len(rust)))
    one, other = (lines[at] if at < len(lines) else "(no line)" for lines in (own, rust))
    return f"line {at + 1}: {one!r}, the Rust has {other!r}"


def compare(grids, rust, asked, shown):
    """How many grids of a batch are not answered alike; the first ones are shown."""
    text = "".join(grids)
    expected = blocks(ask(rust, text))
    if len(expected) != len(grids):
        raise build.CannotCompare(f"no comparison: the Rust answers {len(expected)} of {len(grids)} grids")
    answers = {name: blocks(ask(command, text)) for name, command in asked.items()}
    differing = 0
    for at, (grid, wanted) in enumerate(zip(grids, expected)):
        found = {name: first_difference(own[at] if at < len(own) else [], wanted) for name, own in answers.items()}
        found = {name: difference for name, difference in found.items() if difference}
        differing += bool(found)
        if found and shown + differing <= SHOWN:
            for name, difference in found.items():
                print(f"{name}, {difference}")
            print("    " + grid.replace("\n", "\n    "))
    return differing


def record(rust):
    """The Rust's answer to the grids that bindings/test has."""
    with open(os.path.join(EXAMPLES, "engine.grids"), encoding="ascii") as file:
        answer = ask(rust, file.read())
    with open(os.path.join(EXAMPLES, "engine.answer"), "w", encoding="ascii") as file:
        file.write(answer)


def main():
    options = arguments()
    rust = [build.build(options.rust), "--engine"]
    if options.record:
        record(rust)
        return 0
    if options.n < 1:
        raise build.CannotCompare("no comparison: N has to be at least 1")
    asked = examples(find(options.library, *LIBRARY))
    differing = 0
    for first in range(0, options.n, BATCH):
        numbers = range(first, min(first + BATCH, options.n))
        differing += compare([layouts.make(options.seed, number) for number in numbers], rust, asked, differing)
    print(f"{options.n} grids compared, {differing} differences")
    return 1 if differing else 0


if __name__ == "__main__":
    build.exit_with(main)
