"""What is judged, where it is built: the panel program, and the static library through a program of its own."""
import hashlib
import os
import shutil
import subprocess

import acts
import build
import model
import questions
from batch import Batch, Ended
from build import CannotCompare

LIBRARY_SOURCES = os.path.join(build.COMPARE, "library")
# The variable of the environment that names each, and where it is found in the repository.
PANEL = ("PANEL", "target", "bin", "panel")
LIBRARY = ("LIBRARY", "target", "staticlib", "libpalgwern.a")
# The line between the answer of a sheet and that of its display.
DISPLAYED = "displayed"
BINDINGS = os.path.join(build.REPOSITORY, "bindings", "palgwern.rs")


class Program:
    """The panel program: one process for each sheet."""
    name = "panel program"

    def __init__(self, path):
        if not os.access(path, os.X_OK):
            raise CannotCompare(f"no comparison: the panel program {path} can't be run")
        self.path = path

    def expected(self, sheet, answer, rows):
        """The model's output before any entry call, cut at line feeds."""
        plain = model.Answer(sheet) if answer.calls and not answer.refused else answer
        return plain.output + [""]

    def ask(self, sheet, calls, rows):
        return self.sheet_answer(sheet, calls)

    def sheet_answer(self, sheet, calls):
        """What it prints, cut at line feeds, and how it ended where that is not well."""
        done = subprocess.run([self.path], input=sheet, stdout=subprocess.PIPE)
        ended = [f"(ended with status {done.returncode})"] if done.returncode else []
        return done.stdout.decode("latin-1").split("\n") + ended

    def close(self):
        pass


def whole_answer(answer, rows):
    if answer.refused:
        return answer.full_answer()
    return answer.full_answer() + model.count_lines(answer.state) + questions.answer_lines(answer.state, rows)


class Library(Batch):
    """The static library: a running process that makes its calls."""
    name = "library"

    def expected(self, sheet, answer, rows):
        """The model's whole answer: entry calls, output, names, the pair of areas that share a cell, the number of entries and the answers
        to questions; then that of the display call."""
        return whole_answer(answer, rows) + [DISPLAYED] + whole_answer(model.displayed(sheet, answer), questions.of_display(rows))

    def ask(self, sheet, calls, rows):
        """Its whole answer, and that of its display call."""
        return self.sheet_answer(sheet, calls, rows) + [DISPLAYED] + self.sheet_answer(sheet, [], questions.of_display(rows), b"display")

    def sheet_answer(self, sheet, calls, rows=(), word=b"sheet"):
        """The answer of one call on a sheet."""
        return self.answered(lambda: self.send(sheet, calls, word, rows))

    def history_answer(self, sheet, size, made):
        """The answers to acts on a sheet's panel."""
        return self.answered(lambda: self.process.stdin.write(acts.block_bytes(sheet, size, made)))

    def answered(self, send):
        """The answer to what is sent; where it ended, how, and it is started again."""
        try:
            send()
            return self.read_answer()
        except (Ended, BrokenPipeError):
            status = self.process.wait()
            self.start()
            return [f"(ended with status {status})"]


def find(given, variable, *parts):
    """The file that is given, or named by the environment, or found in the repository; else None."""
    path = given or os.environ.get(variable)
    found = os.path.join(build.REPOSITORY, *parts)
    return path or (found if os.path.exists(found) else None)


def library_sources():
    names = sorted(os.listdir(LIBRARY_SOURCES))
    return [os.path.join(LIBRARY_SOURCES, name) for name in names] + [BINDINGS]


def build_library(archive):
    """The path of the program over the library, compiled anew where anything it is made of has changed."""
    if not os.path.isfile(archive):
        raise CannotCompare(f"no comparison: there is no library {archive}")
    if shutil.which("rustc") is None:
        raise CannotCompare("no comparison: rustc is not at hand")
    out = os.path.join(build.TARGET, "library")
    program = os.path.join(out, "library")
    parts = [build.rustc_version(), *map(build.read_bytes, [archive, *library_sources()])]
    stamp = hashlib.sha256(b"\0".join(parts)).hexdigest().encode()
    if not build.is_stamped(out, program, stamp):
        os.makedirs(out, exist_ok=True)
        folder, name = os.path.split(os.path.abspath(archive))
        build.rustc("-L", "native=" + folder, "-l", "static:+verbatim=" + name, os.path.join(LIBRARY_SOURCES, "main.rs"), "-o", program)
        build.write_tree(out, {"stamp": stamp})
    return program


def judged(panel, library):
    """What there is to judge: the panel program and the library, where they are given or found."""
    panel = find(panel, *PANEL)
    library = find(library, *LIBRARY)
    return ([Program(panel)] if panel else []) + ([Library(build_library(library))] if library else [])
