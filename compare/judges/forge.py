"""Makes forged panels, and every call of the library on each: `forge [--planted] [--library FILE] N SEED`."""
import argparse
import os
import subprocess

import build
import lists
from judged import LIBRARY, build_library, find


def arguments():
    parser = argparse.ArgumentParser(prog="compare/forge", description="Make the library's calls on N forged panels.")
    parser.add_argument("--library", help="the static library (default: LIBRARY, or target/staticlib/libpalgwern.a where it is)")
    parser.add_argument("--planted", action="store_true", help="plant faults in the calls, one at a time, and show that each is found")
    parser.add_argument("n", type=int)
    parser.add_argument("seed", type=int)
    return parser.parse_args()


def main():
    options = arguments()
    archive = find(options.library, *LIBRARY)
    if archive is None:
        raise build.CannotCompare("no comparison: the library is not there, `tools/make palgwern` writes it")
    if options.n < 1:
        raise build.CannotCompare("no comparison: N has to be at least 1")
    folder = os.path.join(build.COMPARE, "target", "lists")
    lists.write_apart(folder, ("accepted", "entries", "refused"))
    lists.write_accepted(folder, "cells")
    what = "--planted" if options.planted else "--forge"
    done = subprocess.run([build_library(archive), what, folder, str(options.n), str(options.seed)])
    if done.returncode not in (0, 1):
        print(f"broken: a call ended the program (status {done.returncode})")
    return 1 if done.returncode else 0


if __name__ == "__main__":
    build.exit_with(main)
