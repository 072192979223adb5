#!/usr/bin/env python3
"""How a crate is checked or built over the libraries that `rt ci` has just proved: it leaves them in the folders of their crates, where `rt check`
and `rt lib` do not take them, and prove each crate below once more. `tools/proved.py CRATE` builds a static library so, as `rt lib` does;
exit status 2 where `rt ci` left no libraries. Nobody has changed a crate since: so `.ci/run` alone calls for it, by OVER_CI=1."""
import os
import pathlib
import re
import subprocess
import sys

root = pathlib.Path(__file__).resolve().parent.parent


def lines_at_or_below(crate):
    """The lines of crates.txt for the crate and for those of this repository that it rests on, by their names."""
    lines = {}
    for line in (root / "crates.txt").read_text().splitlines():
        if line and not line.startswith("#"):
            lines[re.match(r"\w+", line)[0]] = line
    found = [crate]
    for name in found:
        found += [it for it in lines[name].partition(":")[2].split() if it in lines and it not in found]
    return {name: lines[name] for name in found}


def folder_of(library):
    return root / "crates" / library / "out" / "rlib"


def libraries_lacking(crate):
    """Those of the libraries below the crate that `rt ci` did not leave. Beside its own, `rt check` leaves a stamp, and it may be older than its files."""
    below = [it for it in lines_at_or_below(crate) if it != crate]
    return [it for it in below if not (folder_of(it) / f"{it}.rlib" / "format").exists() or (folder_of(it) / "stamp").exists()]


def rattle(verb, crate):
    """The command that checks or builds the crate in its folder or in a copy of that."""
    kit = pathlib.Path(subprocess.run(["rt", "doc"], capture_output=True, text=True, check=True).stdout.strip()).parent
    lines = lines_at_or_below(crate)
    own, named = lines[crate].partition(":")[0], lines[crate].partition(":")[2].split()
    words = [str(kit / "bin" / "rattle"), verb, "--crate-name", crate, "src/main.rt" if (root / "crates" / crate / "src" / "main.rt").exists() else "src/lib.rt"]
    for name in ["std", *named]:
        words += ["--extern", f"{name}={folder_of(name) / f'{name}.rlib' if name in lines else kit / 'rlibs' / f'{name}.rlib'}"]
    for folder in [kit / "rlibs", *[folder_of(name) for name in lines if name != crate]]:
        words += ["-L", f"dependency={folder}"]
    words += ["--antt-project", str(kit / "rattle" / "logic" / "antt-project.json"), "--logic-built", str(kit / "logic_built")]
    words += ["--crate-type", "staticlib"] if own.endswith(" staticlib") else []
    return words + (["--toolchain", str(kit / "toolchain")] if verb == "build" else [])


def main(crate):
    lacking = libraries_lacking(crate)
    if lacking:
        print(f"missing: what `rt ci` proved of {' '.join(lacking)}")
        return 2
    folder = root / "crates" / crate
    (folder / "out").mkdir(exist_ok=True)
    return subprocess.run([*rattle("build", crate), "--backend", "llvm", "--jobs", str(os.cpu_count() or 1), "-o", f"out/lib{crate}.a"], cwd=folder, stdin=subprocess.DEVNULL).returncode


if __name__ == "__main__":
    sys.exit(main(sys.argv[1]))
