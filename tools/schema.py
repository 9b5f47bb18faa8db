#!/usr/bin/env python3
"""Whether docs/script.schema.json says of scripts what `chanrun` says, as far as a schema can.

Each script of examples/ and scripts/, each of docs/ and README.md, and each that stands whole in a test is validated,
and compared with what the program has to print for it, which is stored beside it: what the program takes has to be
valid, and what it refuses has to be invalid. What a schema can't say, or not well, is listed here by the sort of the
fault, with the reason, and so are the scripts with a second fault, which a schema sees and the program doesn't come to.
Each entry of these lists has to be needed by some script.

Each script and each entry counts by itself. The last line is 'N passed, M failed'. The program isn't run. Where
Python's module `jsonschema` isn't installed, a line says so and nothing is counted.
"""

import collections
import json
import re
import sys
from pathlib import Path

try:
    from jsonschema import Draft202012Validator as Validator
except ImportError:
    Validator = None

ROOT = Path(__file__).resolve().parent.parent
SCHEMA = "docs/script.schema.json"

# A script: what it is called here, its bytes, and the line that begins with `fault:`, or anything else where it is
# good.
Script = collections.namedtuple("Script", "name text line")

# The faults that the schema doesn't say, and why.
UNSAID = {
    "not JSON": "a schema speaks of trees, and this text is none",
    "seat S txn N: no channel": "it can't compare a number with how many channels are declared",
    "seat S txn N: not for kind": "it can't look up the kind that is declared for a number",
    "seat S txn N: no reader": "it can't look up the kind that is declared for a number",
    "seat S txn N: too many channels": "it can't count different numbers over the steps of a transaction",
    "seat S txn N: too deep": "steps stand in steps, and it would take a definition for each depth",
}

# The numbers in these scripts are why they are refused: a schema holds each to be whole, as it compares values, and
# the program goes by how they are written.
NOT_WRITTEN_WHOLE = "a whole number with a sign, a fraction or an exponent"

# The ends of scripts with one of these faults, behind which comes another that a schema sees.
TWO_FAULTS = {
    '[[[["read",1]],[7]]]}': "the next transaction has a step that is no list",
    '[[[],[["read",9]]],7]}': "the next seat is no list",
    '[[[["read",7]],[7]]]}': "the next transaction has a step that is no list",
    '[[[["read",0]]],[[],[["read",7]]],7]}': "the next seat is no list",
}


def of_files():
    """The scripts with files of their own. Both `check` and `replay` print the line of a fault."""
    for file in sorted([*ROOT.glob("examples/*.json"), *ROOT.glob("scripts/*.json")]):
        stored = [file.with_suffix(ending) for ending in (".check", ".report")]
        lines = [it.read_text().partition("\n")[0] for it in stored if it.exists()]
        yield Script(file.relative_to(ROOT), file.read_bytes(), lines[0])


def of_cases():
    for file in sorted(ROOT.glob("scripts/*.cases")):
        for number, row in enumerate(file.read_bytes().removesuffix(b"\n").split(b"\n"), 1):
            line, tab, text = row.partition(b"\t")
            if tab and not row.startswith(b"#"):
                yield Script(f"{file.relative_to(ROOT)}, line {number}", text, line.decode())


def of_pages_and_tests():
    """The scripts that stand in pages and in tests, which are good."""
    found = [(page, r"```json\n(.*?)```") for page in [ROOT / "README.md", *sorted(ROOT.glob("docs/*.md"))]]
    tests = sorted([*ROOT.glob("crates/*_tests/src/*.rt"), *ROOT.glob("tests/*/src/*.rattle")])
    found += [(test, r'r#"(\{"version":.*?)"#') for test in tests]
    for file, pattern in found:
        for number, text in enumerate(re.findall(pattern, file.read_text(), re.DOTALL), 1):
            yield Script(f"{file.relative_to(ROOT)}, script {number}", text.encode(), "ok")


def no_constant(name):
    raise ValueError(name)


def tree_of(text, whole=lambda digits, value: value):
    """The tree of a text; `ValueError` where it is none. `whole` may put something else for a number."""
    def number(digits):
        return whole(digits, float(digits) if re.search("[.eE]", digits) else int(digits))
    return json.loads(text.decode(), parse_int=number, parse_float=number, parse_constant=no_constant)


def null_unless_digits(digits, value):
    """What to put for a number: null where only its digits tell that it isn't a whole number here."""
    is_whole = float(value).is_integer() and value >= 0
    return None if is_whole and not digits.isdecimal() else value


def sort_of(line):
    """The fault, as the table of SCRIPTS.md names it; none where the line is of a good script."""
    if not line.startswith("fault: "):
        return None
    fault = line.removeprefix("fault: ")
    return re.sub("txn [0-9]+", "txn N", re.sub("seat [0-9]+", "seat S", fault))


def disagreement(is_valid, script, needed):
    """What the schema says otherwise than the program; none where they agree, or by an entry that it adds."""
    sort = sort_of(script.line)
    try:
        valid = is_valid(tree_of(script.text))
    except ValueError:
        needed.add(sort)
        return None if sort == "not JSON" else "this is no JSON to Python"
    if not valid:
        ends = [end for end in TWO_FAULTS if script.text.endswith(end.encode())]
        needed.update(ends)
        return None if sort and (sort not in UNSAID or sort == "not JSON" or ends) else "the schema refuses it"
    if sort in UNSAID:
        needed.add(sort)
    elif sort == "shape" and not is_valid(tree_of(script.text, null_unless_digits)):
        needed.add(NOT_WRITTEN_WHOLE)
    elif sort:
        return "the schema takes it"
    return None


def main():
    if Validator is None:
        print(f"{SCHEMA} isn't tried: Python's module jsonschema, 4.0 or later, isn't installed")
        print("0 passed, 0 failed")
        return 0
    # A tree can be 127 deep, and each level takes many calls.
    sys.setrecursionlimit(20_000)
    schema = json.loads((ROOT / SCHEMA).read_text())
    Validator.check_schema(schema)
    is_valid = Validator(schema).is_valid
    needed, wrong = set(), []
    scripts = [*of_files(), *of_cases(), *of_pages_and_tests()]
    for script in scripts:
        said = disagreement(is_valid, script, needed)
        if said:
            wrong.append(f"{script.name}: {said}, and what is wanted is: {script.line}")
    entries = [*UNSAID, NOT_WRITTEN_WHOLE, *TWO_FAULTS]
    wrong += [f"no script needs this entry: {entry}" for entry in entries if entry not in needed]
    print("".join(line + "\n" for line in wrong), end="")
    print(f"{len(scripts) + len(entries) - len(wrong)} passed, {len(wrong)} failed")
    return 1 if wrong else 0


if __name__ == "__main__":
    sys.exit(main())
