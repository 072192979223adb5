#!/usr/bin/env python3
"""Brings the names of this repository's own definitions, fields, constructors and lemmas to today's spelling: words in snake case.

    python3 tools/respell.py [--list] [FOLDER]

`camelCase` becomes `camel_case` in every .antt file, in the clauses, imports and comments of every .rt file and in the edits. A dash in
the name of a definition or lemma of specs/ or proofs/ becomes `_`, but where it joins two names that stand by themselves (`length-drop`). Types and facts keep their capital. Functions of src/, exported names, strings and inputs keep theirs. Where a
new name is taken in a scope that sees it, it gets `_of` (a definition) or `_lem` (a lemma). A second run changes nothing.
"""
import collections
import pathlib
import re
import sys

WORD = re.compile(r"[A-Za-z0-9_'′₀-₉-]+")
CAMEL = re.compile(r"[a-z][a-z0-9]*(?:[A-Z][a-zA-Z0-9]*)")
DECLARED = re.compile(r"^( *)((?:(?:abbrev|unfoldable|pub) )*)([^\s(){}.;,:\"]+) :(?=\s)", re.M)
TYPE = re.compile(r"^(?:pub )?(?:record|data) [^\n]*(?:\n(?:  .*)?)*", re.M)
MEMBER = re.compile(r"^  (?:pub )?([^\s(){}.;,:\"]+) :(?=\s)", re.M)
# Words of the library that a dash may join to another name.
LIBRARY = set(
    "length take drop append set split map filter sum get get_or slice_get slice_index replicate reverse zip fold add sub mul div rem "
    "min max pow pos negsuc suc zero and or not cond eqb ltb leb all any".split()
)


def files(root, *endings):
    for path in sorted(root.glob("crates/**/*")):
        if path.suffix in endings and "out" not in path.relative_to(root).parts and path.is_file():
            yield path


def snake(word):
    """The word with each inner capital as `_` and its small letter."""
    return re.sub(r"(?<=[a-z0-9])([A-Z])", lambda m: "_" + m[1].lower(), word)


def is_camel(word):
    return word[:1].islower() and any(c.isupper() for c in word) and not word.startswith("κ")


class Names:
    def __init__(self, root):
        self.texts = {p: p.read_text() for p in files(root, ".antt", ".rt")}
        self.code = {p: t for p, t in self.texts.items() if p.suffix == ".rt"}
        self.antt = {p: t for p, t in self.texts.items() if p.suffix == ".antt"}
        self.declared = collections.defaultdict(set)  # name -> files
        self.inner = collections.defaultdict(set)  # the same for what a section or a `where` declares
        for path, text in self.antt.items():
            for indent, marks, name in DECLARED.findall(text):
                if path.name != "Proof.antt":
                    (self.inner if indent else self.declared)[name].add(path)
        # Fields and constructors that specs/ declare with a dash.
        self.members = {
            name
            for path, text in self.antt.items()
            if "specs" in path.parts
            for block in TYPE.findall(text)
            for name in MEMBER.findall(block)
            if "-" in name
        }
        # Names of the source that a clause could take for a definition: parameters, fields and constants.
        source = "\n".join(re.sub(r"//.*", "", t) for t in self.code.values())
        self.source = set(re.findall(r"\b([a-z_][a-z0-9_]*) ?: ", source))

    def new_of(self):
        """The new name of each old one."""
        plain = {snake(n) if is_camel(n) else n for n in self.declared if "-" not in n}
        joins = plain | LIBRARY
        new = {}
        camels = set()
        for path, text in self.texts.items():
            body = text if path.suffix == ".antt" else "\n".join(clause_lines(text))
            for word in WORD.findall(body):
                for part in word.split("-"):
                    if is_camel(part):
                        camels.add(word)
        for word in camels:
            if "-" not in word:
                new[word] = snake(word)
        for name in set(self.declared) | camels:
            if "-" not in name:
                continue
            parts = [snake(p) if is_camel(p) else p for p in name.split("-")]
            if name not in self.declared:
                new[name] = "-".join(parts)
                continue
            out = "-".join(parts) if len(parts) == 2 and set(parts) <= joins else "_".join(parts)
            new[name] = out
        new.update({name: name.replace("-", "_") for name in self.members})
        return {a: b for a, b in new.items() if a != b}

    def is_lemma(self, name):
        """Whether a name that stands already is a lemma: declared in proofs/ alone."""
        places = self.declared.get(name, set()) | self.inner.get(name, set())
        return bool(places) and all("proofs" in path.parts for path in places)

    def settled(self):
        """The new names, each with what it gets where it is taken, and the reasons."""
        new, said = self.new_of(), []
        tokens = {}
        for path, text in self.antt.items():
            tokens[path] = set(bare_words(text))
        # words that stand in a file by themselves, in the old spelling
        uses = collections.defaultdict(set)
        for path, words in tokens.items():
            for word in words:
                uses[word].add(path)
        into = collections.defaultdict(set)
        for old, name in new.items():
            into[name].add(old)
        for name, olds in sorted(into.items()):
            rivals = sorted(olds, key=lambda o: ("-" in o, o))
            keeper = rivals[0]
            for old in rivals:
                here = uses[old] | self.declared.get(old, set())
                others = set().union(*(uses[o] for o in rivals if o != old)) if len(rivals) > 1 else set()
                is_lemma = "-" in old
                taken = None
                if old != keeper:
                    taken = f"{keeper} becomes it too"
                elif name in self.declared or uses[name] & here:
                    taken = "it stands already"
                elif old in self.declared and name in self.source and not is_lemma:
                    taken = "the source has it"
                if taken == "it stands already" and not is_lemma and self.is_lemma(name):
                    new[name] = name + "_lem"
                    said.append(f"{name} -> {new[name]}: {old} becomes it")
                elif taken:
                    new[old] = name + ("_lem" if is_lemma else "_value" if name.endswith("_of") else "_of")
                    said.append(f"{old} -> {new[old]}: {taken}")
        return new, said


def clause_lines(text):
    """The lines of a source that may have clauses, imports of them or comments."""
    return [line for line in text.split("\n") if not re.search(r'b?"', line) or line.strip().startswith("//")]


def bare_words(text):
    """The words of a file of specs/ or proofs/ that do not follow a dot."""
    text = re.sub(r"--.*", "", text)
    for found in WORD.finditer(text):
        if found.start() == 0 or text[found.start() - 1] != ".":
            yield found[0]


def own_aliases(text):
    """The names by which a file calls modules of this repository's own specs/ and proofs/, but for those that Rattle generates."""
    found = re.findall(r"^(?:pub )?(?:ghost )?use Rattle\.\S+\.([A-Za-z0-9_+]+)(?: as (\S+?))?;?$", text, re.M)
    made = {"Tie", "Lts", "Reads", "Goals", "Given", "Statement", "Met", "Code"}
    return {alias or name for name, alias in found if name not in made}


def respelled(path, text, new, members):
    """The text with the new names."""
    is_code = path.suffix == ".rt"
    proof = path.name == "Proof.antt"
    own = {m[2] for m in DECLARED.findall(text) if not m[0]} if proof else set()
    aliases = own_aliases(text)
    # names that a file takes from the toolchain's library
    foreign = set()
    for group in re.findall(r"^(?:pub |ghost )?use (?!Rattle\.(?!std\b))[^{\n]*\{([^}]*)\}", text, re.M):
        foreign.update(re.split(r"[\s,]+", group))

    def one(found):
        word, start = found[0], found.start()
        if word not in new or word in foreign:
            return word
        before = text[max(0, start - 60) : start]
        if not is_camel(word):
            if word in own or (is_code and "-" not in word):
                return word
            if before.endswith("."):
                head = re.search(r"([A-Za-z0-9_+]+)\.$", before)
                if word not in members and (not head or head[1] not in aliases):
                    return word
        return new[word]

    if not is_code:
        return WORD.sub(one, text)
    lines = []
    position = 0
    for line in text.split("\n"):
        if re.search(r'b?"', line) and not line.strip().startswith("//"):
            lines.append(line)
        else:
            base = position
            lines.append(WORD.sub(lambda m: one(Shifted(m, base)), line))
        position += len(line) + 1
    return "\n".join(lines)


class Shifted:
    """A match of one line, at its place in the whole text."""

    def __init__(self, found, base):
        self.found, self.base = found, base

    def __getitem__(self, key):
        return self.found[key]

    def start(self):
        return self.base + self.found.start()


def main():
    arguments = [a for a in sys.argv[1:] if not a.startswith("--")]
    root = pathlib.Path(arguments[0] if arguments else ".").resolve()
    names = Names(root)
    new, said = names.settled()
    if "--list" in sys.argv:
        for old, name in sorted(new.items()):
            print(old, name)
        print("\n".join("taken: " + s for s in said))
        return
    for path, text in names.texts.items():
        now = respelled(path, text, new, names.members)
        if now != text:
            path.write_text(now)
    for path in files(root, ".edit"):
        text = path.read_text()
        now = respelled(path.with_suffix(".antt"), text, new, names.members)
        now = "\n".join(re.sub(r"(?<![A-Za-z0-9_])[a-z][a-z0-9]*(?:[A-Z][a-zA-Z0-9]*)", lambda m: snake(m[0]), l) if l.startswith(("old:", "new:")) else l for l in now.split("\n"))
        if now != text:
            path.write_text(now)


main()
