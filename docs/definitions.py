"""What a statement rests on: reads the definitions of crates/*/specs and counts the lines that a reader has to believe.

    python3 docs/definitions.py [--closed CRATE/FILE/NAME,..] CRATE/FILE/NAME[.FIELD]..

lists the definitions that those named rest on, each with its lines: code alone, without comments, blank lines and imports. A
definition that is named as closed is not looked into: its promise is the call's. What comes from the toolchain's own library is
not counted. docs/check holds the numbers of docs/ARCHITECTURE.md to this.
"""
import functools
import glob
import os
import re
import sys

REPOSITORY = os.path.dirname(os.path.dirname(os.path.abspath(__file__)))
START = re.compile(r"(?:  )?(?:(?:abbrev|unfoldable)(?: pub)? |(?:pub )?(record|data) )([^\s:(){}]+)(?:\s|$)")
DECLARED = re.compile(r"pub (?:struct|enum) (\w+)\b")
PARTS = re.compile(r"[\s(){};,]+")


class Definition:
    """A definition, a declared type of a crate's sources, or one field of a record: its lines and the names in them."""

    def __init__(self, key, lines):
        self.key = key
        self.lines = [line for line in lines if line.strip() and not line.strip().startswith("--")]
        self.fields = {}

    def words(self):
        """The names in its lines, but for those that it binds and those after a dot, which are fields."""
        text = "\n".join(self.lines)
        bound = {name for group in re.findall(r"\(([^():]+) :", text) for name in group.split()}
        bound |= set(re.findall(r"λ ([^\s.]+)\.", text)) | set(re.findall(r"let ([^\s:]+) [:=]", text))
        own = re.escape(self.key.split("/")[-1])
        for patterns in re.findall(rf"^ *{own} (.*?) = ", text, re.M) + re.findall(rf"^ *{own} (.*?) =$", text, re.M):
            bound |= set(PARTS.split(patterns))
        text = re.sub(r"λ [^\s.]+\.|(?<=[{;])\s*\S+ =|^  pub \S+ :", " ", text, flags=re.M)
        for word in PARTS.split(text):
            if word and not word.startswith(".") and word.partition(".")[0] not in bound:
                yield word


class Module:
    """A file of specs/: its definitions by name, constructors too, and what its imports mean."""

    def __init__(self, crate, name):
        self.crate, self.name = crate, name
        self.definitions, self.imported, self.aliases = {}, {}, {}
        with open(os.path.join(REPOSITORY, "crates", crate, "specs", name + ".antt"), encoding="utf-8") as file:
            self.read(file.read().split("\n"))

    def read(self, lines):
        block = []
        for line in lines + ["-- end"]:
            if line.startswith(("use ", "pub use ")):
                self.read_import(line)
            elif START.match(line) or line.startswith(("-- ", "module ", "pub mod ")):
                self.add(block)
                block = [line] if START.match(line) else []
            elif block:
                block.append(line)

    def read_import(self, line):
        found = re.match(r"(?:pub )?use Rattle\.(\w+?)\.specs\.([\w.\-]+?)(?:\.\{(.*)\}| as (\S+))?$", line)
        if not found:
            return
        crate, path, names, alias = found.groups()
        if alias:
            self.aliases[alias] = (crate, path)
        for name in (names or "").split(","):
            own, _, other = name.strip().partition(" as ")
            self.imported[(other or own).strip()] = (crate, path, own.strip())

    def add(self, block):
        if not block:
            return
        kind, name = START.match(block[0]).groups()
        definition = Definition(f"{self.crate}/{self.name}/{name}", block)
        self.definitions[name] = definition
        if kind == "data":
            for names in re.findall(r"^  (\S[^:]*) : ", "\n".join(definition.lines[1:]), re.M):
                self.definitions.update((constructor, definition) for constructor in names.split() if constructor not in self.definitions)
        elif kind == "record":
            self.add_fields(definition, block)

    def add_fields(self, definition, block):
        field = None
        for line in block[1:]:
            found = re.match(r"  pub (\S+) :", line)
            if found and not line.startswith("   "):
                field = definition.fields.setdefault(found[1], [])
            if field is not None:
                field.append(line)


@functools.cache
def module(crate, name):
    return Module(crate, name)


@functools.cache
def declared(crate, name):
    """A struct or an enum of a crate's sources."""
    for path in glob.glob(os.path.join(REPOSITORY, "crates", crate, "src", "**", "*.rt"), recursive=True):
        with open(path, encoding="utf-8") as file:
            lines = file.read().split("\n")
        for at, line in enumerate(lines):
            if (found := DECLARED.match(line)) and found[1] == name:
                end = at if line.rstrip().endswith((";", "}")) else lines.index("}", at)
                return Definition(f"{crate}/{os.path.relpath(path, os.path.join(REPOSITORY, 'crates', crate))}/{name}",
                                  [one for one in lines[at:end + 1] if not one.strip().startswith("//")])
    return None


def looked_up(crate, path, name):
    """What an import gives: a definition of a file, or a declared type, for its variants too."""
    if path.startswith("declared."):
        parts = [part for part in path.split(".")[1:] if part != "TheVariants"]
        return declared(crate, parts[-1])
    if not os.path.exists(os.path.join(REPOSITORY, "crates", crate, "specs", path + ".antt")):
        return None
    there = module(crate, path)
    return there.definitions.get(name) or (looked_up(*there.imported[name]) if name in there.imported else None)


def meaning(home, word):
    """The definition that a word means in a file, or None: bound, a field, or of the toolchain's library."""
    first, _, rest = word.partition(".")
    if first in home.aliases and rest:
        return looked_up(*home.aliases[first], rest)
    if first in home.definitions:
        return home.definitions[first]
    if first in home.imported:
        return looked_up(*home.imported[first])
    return None


def found(name):
    """The definition or the field that CRATE/FILE/NAME[.FIELD] names; KeyError where there is none."""
    crate, file, last = name.split("/")
    if not os.path.exists(os.path.join(REPOSITORY, "crates", crate, "specs", file + ".antt")):
        raise KeyError(name)
    last, _, field = last.partition(".")
    definition = module(crate, file).definitions[last]
    return Definition(name, definition.fields[field]) if field else definition


def rests_on(names, closed=()):
    """The definitions that those named rest on, themselves among them, by key."""
    held, todo = {}, [found(name) for name in names]
    while todo:
        definition = todo.pop()
        if definition.key in held:
            continue
        held[definition.key] = definition
        crate, file = definition.key.split("/")[:2]
        if file == "src":
            continue
        home = module(crate, file)
        for word in definition.words():
            other = meaning(home, word)
            if other and other.key not in held and other.key not in closed:
                todo.append(other)
    return held


def line_count(names, closed=()):
    return sum(len(definition.lines) for definition in rests_on(names, closed).values())


def main(words):
    closed = ()
    if words and words[0] == "--closed":
        closed, words = words[1].split(","), words[2:]
    if not words:
        print(__doc__.strip())
        return 2
    held = rests_on(words, closed)
    for key in sorted(held):
        print(f"{len(held[key].lines):5} {key}")
    print(f"{sum(len(definition.lines) for definition in held.values()):5} lines in {len(held)} definitions")
    return 0


if __name__ == "__main__":
    sys.exit(main(sys.argv[1:]))
