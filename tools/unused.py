#!/usr/bin/env python3
"""unused.py [CRATE..]: prints FILE:LINE and the name of each import that nothing names, in all crates or these alone.

It reads the `use` and `ghost use` lines with a list in braces, of the sources, definitions and proofs. A line in an
`impl` or a `trait` serves that block alone, any other the whole file. A name with holes, as `◌≡◌`, is used where its
signs stand; of one with an `as` the word behind it counts. What a `pub use` hands on is left out, and so is a trait,
which may serve by its methods. It knows no grammar, and errs on the side of silence: a name that stands anywhere else
in its scope, but for comments, counts as used. The status is 1 if there is one.
"""
import re
import sys
from pathlib import Path

IMPORT = re.compile(r"^[ \t]*(ghost )?use [^{};\n]*\{([^{}]*)\};?", re.MULTILINE)
COMMENT = {".rt": re.compile(r"(?<![:\w])//.*"), ".antt": re.compile(r"(?:^|(?<= ))-- .*")}
TEXT = re.compile(r'"(?:[^"\\\n]|\\.)*"')
TYPE = re.compile(r"\b(?:struct|enum|type) (\w+)")


def blank(text, pattern):
    """The text with each match of the pattern turned into spaces."""
    return pattern.sub(lambda found: " " * len(found[0]), text)


def scope_of(text, at, indent):
    """Where the block begins and ends in which a line with this indent stands: the whole file if it has none."""
    if not indent:
        return 0, len(text)
    outer = indent[4:]
    opened = [it.end() for it in re.finditer(rf"^{outer}\S.*\{{$|^{outer}\{{$", text[:at], re.MULTILINE)]
    closed = re.compile(rf"^{outer}\}}", re.MULTILINE).search(text, at)
    return opened[-1] if opened else 0, closed.start() if closed else len(text)


def is_used(name, text):
    """Whether a name stands in a text, or the signs of one with holes."""
    if "◌" in name:
        return all(sign in text for sign in name.split("◌") if sign)
    # Behind a dot stands a field, but not behind two.
    return re.search(rf"(?<![\w'-])(?<!(?<!\.)\.){re.escape(name)}(?![\w'-])", text) is not None


def unused(path, types):
    """The line and the name of each import of a file that nothing names; these types are no traits."""
    text = blank(path.read_text(encoding="utf-8"), COMMENT[path.suffix])
    imports = list(IMPORT.finditer(text))
    rest = IMPORT.sub(lambda found: found[0].replace(found[2], " " * len(found[2])), text)
    if path.suffix == ".rt":
        rest = blank(rest, TEXT)
    for found in imports:
        line_start = text.rfind("\n", 0, found.start() + 1) + 1
        indent = re.match(r"[ \t]*", text[line_start:])[0]
        begin, end = scope_of(text, line_start, indent)
        at = found.start(2)
        for word in found[2].split(","):
            name = word.strip().split(" as ")[-1].split("::")[-1]
            may_be_trait = path.suffix == ".rt" and not found[1] and re.match(r"[A-Z]\w*[a-z]", name)
            is_known = name not in ("", "self", "*", "_") and (not may_be_trait or name in types)
            if is_known and not is_used(name, rest[begin:end]):
                yield text.count("\n", 0, at + word.index(word.strip()[0])) + 1, word.strip()
            at += len(word) + 1


def main():
    top = Path(__file__).resolve().parent.parent
    crates = sys.argv[1:] or sorted(it.name for it in (top / "crates").iterdir())
    sources = [path.read_text(encoding="utf-8") for path in top.glob("crates/*/src/**/*.rt")]
    types = {name for source in sources for name in TYPE.findall(source)}
    found = [(path, line, name) for crate in crates
             for kind, ending in (("src", "rt"), ("specs", "antt"), ("proofs", "antt"))
             for path in sorted((top / "crates" / crate / kind).rglob(f"*.{ending}"))
             for line, name in unused(path, types)]
    for path, line, name in found:
        print(f"{path.relative_to(top)}:{line}: {name}")
    return 1 if found else 0


if __name__ == "__main__":
    sys.exit(main())
