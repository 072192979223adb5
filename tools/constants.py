"""The values of constants in Rattle's sources: `value(read, path, name)` is what `name` is in the file at `path`.

A constant may be a sum, a difference or a product of numbers and of other constants, of its file, of an import or by a path, and may
be cast. `read` gives the text of a file, empty where there is none."""
import re

LIMITS = {"u16::MAX": 65535, "i16::MAX": 32767, "i16::MIN": -32768, "u32::MAX": 4294967295}
TOKEN = re.compile(r"\s*(?:(\d[\d_]*)|((?:\w+::)*\w+)|([-+*()]))")


class NoConstant(Exception):
    """A name that stands for no constant, or a form that is not understood."""


def without_comments(text):
    return re.sub(r"//[^\n]*", "", text)


def modules_of(path, module):
    """The files that a path of modules may mean, seen from the file at `path`."""
    crate = path.split("/")[1]
    parts = module.split("::")
    if parts[0] != "crate":
        crate = parts[0]
    inside = "/".join(parts[1:])
    return [f"crates/{crate}/src/{inside}.rt", f"crates/{crate}/src/lib.rt"] if inside else [f"crates/{crate}/src/lib.rt"]


def imported(text, name):
    """The module that a file imports a name from."""
    for module, names in re.findall(r"^(?:pub )?use ([\w:]+)::(\{[^}]*\}|\w+);", text, re.M):
        if name in re.findall(r"\w+", names):
            return module
    raise NoConstant(name)


def value(read, path, name):
    if name in LIMITS:
        return LIMITS[name]
    module, _, own = name.rpartition("::")
    if module:
        for file in modules_of(path, module):
            if read(file):
                return value(read, file, own)
        raise NoConstant(f"{path}: {name}")
    text = without_comments(read(path))
    found = re.search(rf"\bconst {name}: \w+ = (.*?);", text, re.S)
    if found:
        return evaluated(read, path, found[1])
    return value(read, path, f"{imported(text, name)}::{name}")


def evaluated(read, path, text):
    """The number that an expression comes to; casts are passed over."""
    words, at = [], 0
    text = re.sub(r"\bas \w+", "", text).strip()
    while at < len(text):
        token = TOKEN.match(text, at)
        if not token:
            raise NoConstant(f"{path}: {text}")
        at = token.end()
        number, name, sign = token.groups()
        words.append(number.replace("_", "") if number else sign if sign else "" if re.fullmatch(r"[ui]\w+::from", name) else str(value(read, path, name)))
    return eval("".join(f"({word})" if re.fullmatch(r"-\d+", word) else word for word in words), {"__builtins__": {}})
