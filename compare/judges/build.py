"""Builds the harness around the unchanged Rust files, after testing their checksums."""
import hashlib
import os
import shutil
import subprocess
import sys

COMPARE = os.path.dirname(os.path.dirname(os.path.abspath(__file__)))
REPOSITORY = os.path.dirname(COMPARE)
TARGET = os.path.join(COMPARE, "target")
DEFAULT_SOURCES = os.path.join(REPOSITORY, "..", "shared", "docs", "src")

# What follows the last byte of an unchanged file in the build folder, and why.
APPENDED = {
    # The published file ends in a `#[cfg(..)]`, which needs an item.
    "style_helpers.rs": "const _: () = ();\n",
    # A child module may call the private functions of its parent: direct entries need one.
    "compute/grid/types/named.rs": "mod enter;\n",
}


class CannotCompare(Exception):
    """The comparison can't happen; the text is one line that says why."""


def exit_with(main):
    """Run a command; where the comparison can't happen, say why in one line and end with status 2."""
    try:
        sys.exit(main())
    except CannotCompare as reason:
        print(reason, file=sys.stderr)
        sys.exit(2)


def read_bytes(path):
    with open(path, "rb") as file:
        return file.read()


def unchanged_files(sources):
    """The Rust files by path, each with the checksum that is recorded for it."""
    files = {}
    for line in read_bytes(os.path.join(COMPARE, "checksums")).decode().splitlines():
        checksum, path = line.split()
        full = os.path.join(sources, path)
        if not os.path.isfile(full):
            raise CannotCompare(f"no comparison: the Rust file {path} is not in {sources}")
        data = read_bytes(full)
        if hashlib.sha256(data).hexdigest() != checksum:
            raise CannotCompare(f"no comparison: the Rust file {path} in {sources} is not the unchanged one")
        files[path] = data
    return files


def shim_files():
    """Our own files around the unchanged ones, by path."""
    folder = os.path.join(COMPARE, "harness")
    files = {}
    for top, _, names in os.walk(folder):
        for name in names:
            full = os.path.join(top, name)
            files[os.path.relpath(full, folder)] = read_bytes(full)
    return files


def write_tree(folder, files):
    for path, data in files.items():
        full = os.path.join(folder, path)
        os.makedirs(os.path.dirname(full), exist_ok=True)
        with open(full, "wb") as file:
            file.write(data)


def rustc(*words):
    done = subprocess.run(["rustc", "--edition", "2021", "-O", "-C", "overflow-checks=on", *words],
                          capture_output=True, text=True)
    if done.returncode != 0:
        raise CannotCompare("no comparison: rustc failed: " + done.stderr.strip().splitlines()[0])


def compile_tree(source, out):
    """A library for the stand-in of smallvec, and the harness over it."""
    library = os.path.join(out, "libsmallvec.rlib")
    harness = os.path.join(out, "harness")
    rustc("--crate-type", "rlib", "--crate-name", "smallvec", os.path.join(source, "smallvec.rs"), "-o", library)
    rustc("--crate-name", "harness", "--extern", "smallvec=" + library, "--cap-lints", "allow",
          *[word for name in ("std", "grid", "calc") for word in ("--cfg", f'feature="{name}"')],
          os.path.join(source, "main.rs"), "-o", harness)
    return harness


def rustc_version():
    return subprocess.run(["rustc", "--version"], capture_output=True).stdout


def is_stamped(out, program, stamp):
    """Whether the program was made of what the stamp says."""
    path = os.path.join(out, "stamp")
    return os.path.isfile(program) and os.path.isfile(path) and read_bytes(path) == stamp


def build(sources=None, name="harness", change=None):
    """The path of the harness, built anew where anything it is made of has changed.

    `change` maps the files of a measuring copy (see `coverage`); the judge is built without it."""
    sources = sources or os.environ.get("RUST_SOURCES") or DEFAULT_SOURCES
    if shutil.which("rustc") is None:
        raise CannotCompare("no comparison: rustc is not at hand")
    files = unchanged_files(sources)
    for path, text in APPENDED.items():
        files[path] = files[path] + text.encode()
    files.update(shim_files())
    if change:
        files = change(files)
    out = os.path.join(TARGET, name)
    harness = os.path.join(out, "harness")
    stamp = hashlib.sha256(rustc_version() + repr(sorted(files.items())).encode()).hexdigest().encode()
    if is_stamped(out, harness, stamp):
        return harness
    shutil.rmtree(out, ignore_errors=True)
    write_tree(os.path.join(out, "src"), files)
    compile_tree(os.path.join(out, "src"), out)
    write_tree(out, {"stamp": stamp})
    return harness
