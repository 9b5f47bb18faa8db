#!/usr/bin/env python3
"""unclaused.py: lists the public functions and methods of the libraries in crates/ without a clause `ensures`.
unclaused.py --write: writes the list to docs/GUARANTEES.md. tools/pages.py compares it.

A method of a trait counts if the trait declares it. The crates of tests and the programs have no part in it.
"""
import re
import sys
from pathlib import Path

ROOT = Path(__file__).resolve().parent.parent
PAGE = ROOT / "docs" / "GUARANTEES.md"
NAME = re.compile(r"^([a-z0-9_]+)[^:#]*:", re.MULTILINE)
# A public function, or a method that a public trait declares, up to its body or its end.
FUNCTION = re.compile(r"^( *)((?:pub )?)(?:const )?(?:unsafe )?(?:extern \"C\" )?fn (\w+)(.*?)(?:\{\n|\{\}|;\n)",
                      re.MULTILINE | re.DOTALL)
BLOCK = re.compile(r"^(pub trait|(?:unsafe )?impl)\b(?:<(?:[^<>]|<[^<>]*>)*>)? *(?:[^{]*? for )?(?:&'?\w* ?)?(\w+)",
                   re.MULTILINE)
CLAUSE = re.compile(r"^ *(?:ensures|ghost )", re.MULTILINE)
LIST = re.compile(r"(These public calls have no clause:\n\n)(.*?)(\n\n)", re.DOTALL)
LEFT_OUT = re.compile(r"_tests$|^example_|^chanrun")
WIDTH = 120


def libraries():
    """The names of the libraries, lowest first."""
    names = NAME.findall((ROOT / "crates.txt").read_text(encoding="utf-8"))
    return [it for it in names if not LEFT_OUT.search(it)]


def owner_at(text, at):
    """The type or the trait in whose block a place of a text is, and whether that is a trait."""
    found = [it for it in BLOCK.finditer(text, 0, at)]
    return (found[-1][2], found[-1][1] == "pub trait") if found else ("", False)


def without_clause(text):
    """The public functions of a source without a clause, a method with its type."""
    for match in FUNCTION.finditer(text):
        indent, is_public, name, rest = match.groups()
        owner, is_of_trait = owner_at(text, match.start()) if indent else ("", False)
        if (is_public or indent and is_of_trait) and not re.search(r"\bensures\b", rest):
            yield f"{owner}::{name}" if owner else name


def found():
    """For each library with such functions, their names."""
    all_found = {}
    for name in libraries():
        sources = sorted((ROOT / "crates" / name / "src").rglob("*.rt"))
        names = [it for file in sources for it in without_clause(file.read_text(encoding="utf-8"))]
        if names:
            all_found[name] = sorted({*names})
    return all_found


def wrapped(line):
    """A point of a list, in lines that are not too wide."""
    lines = [""]
    for word in line.split(" "):
        if len(lines[-1]) + len(word) >= WIDTH:
            lines.append(" ")
        lines[-1] += (" " if lines[-1] else "") + word
    return "\n".join(lines)


def listed():
    """The list as the page has it."""
    points = (f"- {crate}: {', '.join(f'`{it}`' for it in names)}" for crate, names in found().items())
    return "\n".join(wrapped(it) for it in points)


def is_up_to_date():
    """Whether the page has this list."""
    match = LIST.search(PAGE.read_text(encoding="utf-8"))
    return match is not None and match[2] == listed()


def main():
    if sys.argv[1:] == ["--write"]:
        text = PAGE.read_text(encoding="utf-8")
        PAGE.write_text(LIST.sub(lambda match: match[1] + listed() + match[3], text), encoding="utf-8")
    else:
        print(listed())


if __name__ == "__main__":
    main()
