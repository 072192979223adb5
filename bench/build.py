"""Builds the bench: the unchanged Rust files, the shims of `compare/harness` around them, and the files here, as one program.

It prints the path of the program. Where that can't be built it says why in one line, with status 2."""
import os
import shutil
import subprocess
import sys

BENCH = os.path.dirname(os.path.abspath(__file__))
REPOSITORY = os.path.dirname(BENCH)
LIBRARY = os.path.join(REPOSITORY, "target", "staticlib")
OUT = os.path.join(BENCH, "target")
sys.path.insert(0, os.path.join(REPOSITORY, "compare", "judges"))
import build as harness  # noqa: E402 (the judges' own build, for its files and checksums)

# Where a file of this folder stands in the program; all others stand beside its root.
PLACES = {"theirs.rs": "compute/grid/panel/theirs.rs", "again.rs": "palgwern/again.rs"}
# A child module may use the private parts of its parent: the driver's, and the state of a panel.
CHILDREN = {"compute/grid/panel.rs": "pub(crate) mod theirs;\n", "palgwern.rs": "mod again;\n"}
# As a release is built: no overflow checks, and one unit, which the Rust is the faster for.
FLAGS = ["--edition", "2021", "-C", "opt-level=3", "-C", "codegen-units=1", "--cap-lints", "allow"]


def program_files(sources):
    """Every file of the program by path, the Rust files with the checksums that are recorded for them."""
    files = harness.unchanged_files(sources)
    for path, text in harness.APPENDED.items():
        files[path] += text.encode()
    files.update(harness.shim_files())
    files["palgwern.rs"] = harness.read_bytes(os.path.join(REPOSITORY, "bindings", "palgwern.rs"))
    for name in os.listdir(BENCH):
        if name.endswith(".rs"):
            files[PLACES.get(name, name)] = harness.read_bytes(os.path.join(BENCH, name))
    for path, text in CHILDREN.items():
        files[path] += text.encode()
    return files


def rustc(*words):
    done = subprocess.run(["rustc", *FLAGS, *words], capture_output=True, text=True)
    if done.returncode != 0:
        raise harness.CannotCompare("no bench: rustc failed: " + done.stderr.strip().splitlines()[0])


def build(sources):
    source = os.path.join(OUT, "src")
    library = os.path.join(OUT, "libsmallvec.rlib")
    program = os.path.join(OUT, "bench")
    shutil.rmtree(source, ignore_errors=True)
    harness.write_tree(source, program_files(sources))
    rustc("--crate-type", "rlib", "--crate-name", "smallvec", os.path.join(source, "smallvec.rs"), "-o", library)
    rustc("--crate-name", "bench", "--extern", "smallvec=" + library, "-L", "native=" + LIBRARY,
          "-l", "static=palgwern", "-l", "static=explicit_size_bench",
          *[word for name in ("std", "grid", "calc") for word in ("--cfg", f'feature="{name}"')],
          os.path.join(source, "main.rs"), "-o", program)
    return program


def main():
    print(build(os.environ.get("RUST_SOURCES") or harness.DEFAULT_SOURCES))


harness.exit_with(main)
