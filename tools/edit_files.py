#!/usr/bin/env python3
"""edit_files.py EDIT FOLDER: changes the crate in FOLDER as the mutant in the file EDIT does.

A mutant is a file crates/CRATE/must-fail/NAME.edit, crates/CRATE/edits/NAME.edit or, if only a test sees it,
crates/CRATE/tested/NAME.edit. A line `file: PATH` names a file of
the crate. A line `old: TEXT` and the line `new: TEXT` after it replace a text that occurs once in that file.
"""
import re
import sys
from pathlib import Path

ROOT = Path(__file__).resolve().parent.parent
FOLDERS = ("must-fail", "edits")
# Mutants that only a test sees.
TESTED = "tested"
FUNCTION = re.compile(r'^( *)(?:pub(?:\([a-z]+\))? )?(?:const )?(?:unsafe )?(?:extern "C" )?fn (\w+)')

IMPL = re.compile(r"^(?:unsafe )?impl\b(<.*?>+)? (?:(\S.*) for )?(?:\w+::)*(\w+)")


class Invalid(Exception):
    """Why a mutant can't be applied, in a few words."""


def edits_of(crate):
    """The mutants of the crate in a folder, from both folders."""
    return [it for folder in FOLDERS for it in sorted((crate / folder).glob("*.edit"))]


def tested_in(crate):
    """The mutants of the crate in a folder that only a test sees."""
    return sorted((crate / TESTED).glob("*.edit"))


def pairs_of(edit):
    """What a mutant replaces: the path, the old text and the new one of each pair of lines."""
    path, old, found = "", "", []
    for line in edit.read_text(encoding="utf-8").split("\n"):
        if line.startswith("file: "):
            path = line[len("file: "):].strip()
        elif line.startswith("old: "):
            old = line[len("old: "):]
        elif line.startswith("new:"):
            if not path or not old:
                raise Invalid("a line `new:` before any `file:` or `old:`")
            found.append((path, old, line[len("new:"):].removeprefix(" ")))
            old = ""
    if not found:
        raise Invalid("no lines `old:` and `new:`")
    return found


def texts_of(crate, edits):
    """The files that these mutants change in the crate in a folder, one after another: each path with its text."""
    texts = {}
    for path, old, new in [pair for edit in edits for pair in pairs_of(edit)]:
        if path not in texts:
            if not (crate / path).is_file():
                raise Invalid(f"no file {path}")
            texts[path] = (crate / path).read_text(encoding="utf-8")
        count = texts[path].count(old)
        if count != 1 or old == new:
            raise Invalid(f"{path} has its old text {count} times" if count != 1 else "its old text is its new text")
        texts[path] = texts[path].replace(old, new)
    return texts


def function_of(crate, edit):
    """The one function whose body a mutant changes: the path of its file, the type whose method it is or "", with the
    trait after it if it is a trait's method (`PlainHold`), and its name. None if the mutant changes another text, as a
    contract, a type or a definition."""
    found = {function_at(crate, path, old) for path, old, _ in pairs_of(edit)}
    return found.pop() if len(found) == 1 else None


def function_at(crate, path, old):
    """The function in whose body a text of a file begins, or None."""
    if not path.startswith("src/"):
        return None
    text = (crate / path).read_text(encoding="utf-8")
    at = text.find(old)
    lines = text[:at].split("\n")
    for number in range(len(lines) - 1, -1, -1):
        head = FUNCTION.match(lines[number])
        if head:
            if not has_opened(head[1], lines[number:-1]):
                return None
            return path, type_of_method(lines[:number]) if head[1] else "", head[2]
    return None


def type_of_method(lines):
    """The type of the impl block that begins in the last of these lines that begins one, with its trait, or ""."""
    heads = (IMPL.match(line) for line in reversed(lines))
    head = next((it for it in heads if it), None)
    if head is None:
        return ""
    parameters, trait, name = head[1] or "", head[2] or "", head[3]
    words = (it for it in re.findall(r"\w+", re.sub(r"\w+::", "", trait)) if not re.search(rf"\b{it}\b", parameters))
    return name + "".join(it[:1].upper() + it[1:] for it in words)


def has_opened(indent, lines):
    """Whether the body of a function begins in these lines, which its head begins and which rt fmt has laid out."""
    is_last_of_head = lambda place, line: line.endswith("{") and (place == 0 or line.startswith(indent + ")"))
    return indent + "{" in lines or any(is_last_of_head(*it) for it in enumerate(lines))


def main(edit, crate):
    for path, text in texts_of(Path(crate), [Path(edit)]).items():
        (Path(crate) / path).write_text(text, encoding="utf-8")


if __name__ == "__main__":
    if len(sys.argv) != 3:
        sys.exit(__doc__)
    try:
        main(*sys.argv[1:])
    except (Invalid, OSError) as error:
        sys.exit(f"edit_files.py: {sys.argv[1]}: {error}")
