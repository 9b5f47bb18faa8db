#!/usr/bin/env python3
"""Whether each name that a file imports from the specs/ or proofs/ of a crate stands in the file that the import says:
in `use Rattle.CRATE.specs.FILE.{..}` of definitions, proofs and, behind `ghost`, sources, and where a tactic has a
lemma by `crate::proofs::FILE::LEMMA`. A proof tells so too, but only once it has come to that file.

What the toolchain writes is left out: `specs.declared`, `specs.contracts`, and what belongs to a function, as `Goals`.

Each name or file that isn't there has a line. The last line is 'N passed, M failed', and the status is 1 where one
failed.
"""

import re
import sys
from functools import cache
from pathlib import Path

ROOT = Path(__file__).resolve().parent.parent
# An import: the crate, the folder, the module, and its names where it has a list of them.
USE = re.compile(
    r"^[ \t]*(?:pub |ghost )*use Rattle\.(\w+)\.(specs|proofs)\.([^\s;{]+?)(?:\.\{([^}]*)\}|;?$| as )", re.M)
LEMMA = re.compile(r"\bcrate::(proofs)::(\w+)::([^\s,:)]+)")
# What others may import: a definition, and each way to make a value of a type of several.
DEFINED = re.compile(
    r"^[ \t]*(?:abbrev |unfoldable )*pub (?:abbrev |record |data |ruleset )*(?!use |mod )([^\s:({]+)", re.M)
MADE = re.compile(r"^pub data .*\n((?:[ \t]+.*\n)+)", re.M)
WAY = re.compile(r"^[ \t]+([^\s:({]+) :", re.M)
GIVEN_AGAIN = re.compile(r"^pub use Rattle\.(\w+)\.specs\.(\S+)$", re.M)
WRITTEN_BY_THE_TOOLCHAIN = {"declared", "contracts"}


def words(names):
    """The names of a list, as the file that has them calls them."""
    return [word.split(" as ")[0].strip() for word in names.split(",") if word.strip()]


@cache
def text_of(file):
    return file.read_text(encoding="utf-8")


@cache
def defined(file):
    """The names that others may import from a file."""
    text = text_of(file)
    return {*DEFINED.findall(text), *WAY.findall("".join(MADE.findall(text)))}


def place(crate, folder, module):
    """The file of a module, and what the module is inside it; None where the toolchain writes the module."""
    path = module.split(".")
    if folder == "specs" and path[0] in WRITTEN_BY_THE_TOOLCHAIN:
        return None
    top = ROOT / "crates" / crate / folder
    for count in range(len(path), 0, -1):
        file = top.joinpath(*path[:count]).with_suffix(".antt")
        if file.is_file():
            return file, path[count:]
    # Lemmas stand in files with a capital, and what belongs to a function in a folder without.
    if folder == "proofs" and path[0][0].islower():
        return None
    library = top / "Lib.antt"
    for other, given in GIVEN_AGAIN.findall(text_of(library)) if folder == "specs" and library.is_file() else []:
        if given == path[0]:
            return place(other, folder, module)
    return top.joinpath(*path).with_suffix(".antt"), []


def missing(crate, folder, module, names):
    """Each name of an import that isn't where the import says, in words; and how many were looked for."""
    at = place(crate, folder, module)
    if at is None:
        return [], 0
    file, inside = at
    where = file.relative_to(ROOT)
    if not file.is_file():
        return [f"there is no {where}"], 1
    wanted = [*inside[:1], *names]
    return [f"{name} isn't in {where}" for name in wanted if name not in defined(file)], len(wanted) or 1


def imports(file):
    """The imports of a file from crates of this repository: the crate, the folder, the module and the names."""
    text = text_of(file)
    own = file.relative_to(ROOT / "crates").parts[0]
    for crate, folder, module, names in USE.findall(text):
        if crate.startswith("txc_") or (ROOT / "crates" / crate).is_dir():
            yield crate, folder, module, words(names)
    for folder, module, lemma in LEMMA.findall(text):
        yield own, folder, module, [lemma]


def main():
    files = [file for kind in ("src/**/*.rt", "specs/**/*.antt", "proofs/**/*.antt")
             for file in sorted((ROOT / "crates").glob(f"*/{kind}"))]
    passed = failed = 0
    for file in files:
        for found in imports(file):
            faults, count = missing(*found)
            for fault in faults:
                print(f"{file.relative_to(ROOT)}: {fault}")
            passed, failed = passed + count - len(faults), failed + len(faults)
    print(f"{passed} passed, {failed} failed")
    return 0 if passed and not failed else 1


if __name__ == "__main__":
    sys.exit(main())
