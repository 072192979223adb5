"""Which branches of the Rust functions the recorded lists reach, by a measuring copy of them.

The measuring copy is no judge: it is the unchanged text with a counter put at the start of each
branch. It is built beside the harness and used for nothing else."""
import os
import re

import build
import model
import rules
from compare import MOST_ENTRIES_ASKED, Rust, asked_of_the_rust
from lists import blocks, call_of, read_list

# Files with every function measured, or (from, to): the functions between these lines of text.
MEASURED = {
    "compute/grid/explicit_grid.rs": None,
    "compute/grid/types/named.rs": ("fn line(&self, axis: GridAreaAxis", "/// Move the row and column line-name maps"),
    "compute/grid/types/coordinates.rs": ("pub(crate) fn into_origin_zero_line", "/// Converts a grid line in OriginZero"),
    "style/grid.rs": ("fn definite_value", None),
}
BLOCK = re.compile(r"(\b(if|else|for|while)\b|=> (?=\{$)|\| (?=\{$)|^\)|\bfn\b).*\{$")
MATCH_OR_LITERAL = re.compile(r"\bmatch\b.*\{$|\b[A-Z]\w*(::<\w+>)? \{$|^(impl|pub struct|struct|enum|trait|pub trait)\b")
ARM = re.compile(r"^(\s*)(.*?) => ([^{].*),$")
LONG_ARM = re.compile(r"^(\s*)(.*?) => ([^{].*[^,{(])$")
INLINE = re.compile(r"\bif (.+?) \{ (.+?) \} else \{ (.+?) \}")

INVALID = "a template that is not valid counts as none here, and the Rust is asked without it"
# Branches that no panel can reach, with the reason: by their text, or by their file, line and text.
UNREACHABLE = {
    "let Some(template) = template else {": "`Style` always has a template",
    "_ => unreachable!(),": "named lines are resolved before this match",
    "_ if self.0.is_plain_calc()": "calc is left out by document 01",
    "not: if let Some(area_iter)": "`Style` always has areas here, perhaps none in the list",
    "not: if let Some(track_template)": "`Style` always has a template",
    "not: if let Some(mut column_tracks)": "`Style` always has a template",
    "not: if let Some(mut row_tracks)": "`Style` always has a template",
    "not: if let Some(column_line_names_iter)": "`Style` always has name sets",
    "not: if let Some(row_line_names_iter)": "`Style` always has name sets",
    "pub(crate) fn resolve_row_names": "calls `resolve_line_names`, which is driven itself",
    "pub(crate) fn resolve_column_names": "calls `resolve_line_names`, which is driven itself",
    "fn add_assign": "no compared function adds so",
    "explicit_grid.rs:54 if template_has_repetitions_with_zero_tracks": INVALID,
    "explicit_grid.rs:87 if !template_is_valid": INVALID,
}

HEADING = """# Branches of the Rust functions and the recorded case that reaches each first

Written by `compare/coverage`. `not:` is the other side of an `if` without `else`; a row without a case says why.

| Branch | Text | First reached by |
|---|---|---|
"""

MEASURE = """
use std::cell::RefCell;

thread_local! {
    static SEEN: RefCell<(Vec<bool>, Vec<usize>)> = const { RefCell::new((Vec::new(), Vec::new())) };
}

pub(crate) fn reached(number: usize) {
    SEEN.with(|seen| {
        let (known, new) = &mut *seen.borrow_mut();
        if known.len() <= number {
            known.resize(number + 1, false);
        }
        if !known[number] {
            known[number] = true;
            new.push(number);
        }
    })
}

/// A value on its way, counted.
pub(crate) fn passed<T>(number: usize, value: T) -> T {
    reached(number);
    value
}

/// The answer with a last line of the branches that it reached first.
pub(crate) fn with_new(text: String) -> String {
    let new = SEEN.with(|seen| std::mem::take(&mut seen.borrow_mut().1));
    let numbers: Vec<String> = new.iter().map(usize::to_string).collect();
    text + "reached\\t" + &numbers.join("\\t") + "\\n"
}
"""


class Measuring:
    """Puts the counters in; `branches` lists (path, line number, text) by counter."""

    def __init__(self):
        self.branches = []

    def counter(self, path, number, text):
        self.branches.append((path, number, text.strip()))
        return f"crate::measure::reached({len(self.branches) - 1});"

    def line(self, path, number, text):
        """One line with its counters."""
        stripped = text.strip()
        if stripped.startswith(("//", "#[")):
            return text
        if INLINE.search(text):
            parts = INLINE.search(text)
            counters = [self.counter(path, number, f"{way} {parts[1]}: {stripped}") for way in ("if", "unless")]
            return INLINE.sub(lambda found: f"if {found[1]} {{ {counters[0]} {found[2]} }} else {{ {counters[1]} {found[3]} }}", text)
        if BLOCK.search(stripped) and not MATCH_OR_LITERAL.search(stripped):
            return text + " " + self.counter(path, number, text)
        arm = ARM.match(text)
        if arm and balanced(arm[3]):
            return f"{arm[1]}{arm[2]} => {{ {self.counter(path, number, text)} {arm[3]} }},"
        long = LONG_ARM.match(text)
        if long and balanced(long[3]):
            self.counter(path, number, text)
            return f"{long[1]}{long[2]} => crate::measure::passed({len(self.branches) - 1}, {long[3]})"
        return text

    def other_side(self, path, lines, number):
        """For the `}` that ends an `if` without `else`: the counter of its other side."""
        indent = lines[number - 1][:-1]
        for above in range(number - 2, -1, -1):
            text = lines[above]
            if text.startswith(indent) and text[len(indent):len(indent) + 1] not in ("", " "):
                if text.startswith(indent + "if ") and text.endswith("{"):
                    return " else { " + self.counter(path, above + 1, "not: " + text.strip()) + " }"
                return ""
        return ""

    def lines(self, path, lines, wanted):
        """Every line with its counters."""
        for number, text in enumerate(lines, start=1):
            if number not in wanted:
                yield text
            elif text.strip() == "}":
                yield text + self.other_side(path, lines, number)
            else:
                yield self.line(path, number, text)

    def change(self, files):
        """The files of the measuring copy."""
        files = dict(files)
        for path, bounds in MEASURED.items():
            lines = files[path].decode().split("\n")
            wanted = chosen_lines(lines, bounds)
            files[path] = "\n".join(self.lines(path, lines, wanted)).encode()
        files["measure.rs"] = MEASURE.encode()
        files["main.rs"] = files["main.rs"].replace(b"mod batch;", b"mod batch;\nmod measure;")
        files["batch.rs"] = files["batch.rs"].replace(b"        write!(output", b"        let text = crate::measure::with_new(text);\n        write!(output")
        return files


def balanced(text):
    return all(text.count(left) == text.count(right) for left, right in ("()", "{}", "[]"))


def chosen_lines(lines, bounds):
    """The numbers of the lines inside the bounds; without an end, of each function that starts so."""
    if bounds is None:
        return set(range(1, len(lines) + 1))
    start, end = bounds
    if end:
        first = next(number for number, text in enumerate(lines, start=1) if start in text)
        last = next(number for number, text in enumerate(lines, start=1) if end in text)
        return set(range(first, last))
    wanted = set()
    for first in [number for number, text in enumerate(lines, start=1) if start in text]:
        last = next(number for number in range(first, len(lines)) if lines[number].rstrip() == "    }")
        wanted |= set(range(first, last + 2))
    return wanted


def asked_by(sheet, calls, display):
    """The sheet as the Rust is asked on it, with the accepted entries; None where it isn't."""
    answer = model.Answer(sheet, calls, display)
    if not answer.refused:
        return asked_of_the_rust(sheet, answer.state.panel), answer.state.accepted
    panel = getattr(answer.refused, "panel", None)
    if panel and max(rules.entry_count(axis) for axis in panel.axes.values()) <= MOST_ENTRIES_ASKED:
        return asked_of_the_rust(sheet, panel), []
    return None


def first_cases(rust):
    """For each branch reached, the recorded case that reaches it first."""
    found = {}
    for file in ("cases", "limits", "areas", "pictures", "cells", "entries", "accepted", "large", "refused"):
        for block in blocks(read_list(file)):
            asked = asked_by(block.sheet, [call_of(row) for row in block.rows], block.display)
            if asked is not None:
                take_new(found, rust.ask(*asked)[-1], f"{file}/{block.name}")
    take_new(found, rust.lines(3)[-1], "lines")
    return found


def take_new(found, line, name):
    for number in line.split("\t")[1:]:
        if number:
            found[int(number)] = name


def reason(file, line, text):
    known = f"{file}:{line} {text}"
    return next((why for start, why in UNREACHABLE.items() if start in known), None)


def row(branch, by):
    """A row of the table, and whether the branch is missed without a reason."""
    file, line, text = branch
    why = reason(file, line, text)
    missed = by is None and why is None
    by = by or (f"not reached: {why}" if why else "NOT REACHED")
    text = text.replace("|", "\\|")
    return f"| {file}:{line} | `{text}` | {by} |\n", missed


def main():
    measuring = Measuring()
    rust = Rust(build.build(name="measure", change=measuring.change))
    found = first_cases(rust)
    rust.close()
    rows = [row(branch, found.get(number)) for number, branch in enumerate(measuring.branches)]
    missed = sum(missed for _, missed in rows)
    summary = f"{len(rows)} branches, {len(found)} reached, {missed} missed"
    with open(os.path.join(build.COMPARE, "BRANCHES.md"), "w", encoding="utf-8") as file:
        file.write(HEADING + "".join(text for text, _ in rows) + f"\n{summary}\n")
    print(summary)
    return 1 if missed else 0


if __name__ == "__main__":
    build.exit_with(main)
