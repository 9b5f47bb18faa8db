#!/usr/bin/env bash
# measures.sh [CRATE..]: prints in figures how the sources and definitions of all crates but those of tests read, or of
# these crates alone: what a change should make lower and never higher. With --names it prints what was counted too.
set -eu
cd "$(dirname "${BASH_SOURCE[0]}")/.."
exec python3 - "$@" <<'PYTHON'
import re
import sys
from collections import defaultdict
from pathlib import Path

MOST_PARAMETERS, MOST_LINES, MOST_CLAUSES, MOST_WIDE = 5, 40, 8, 120
FUNCTION = re.compile(r"^( *)(?:pub(?:\([a-z]+\))? )?(?:const )?fn (\w+)")
CLAUSE = re.compile(r"^ *(?:requires|ensures)\*? ")
IMPORT = re.compile(r"^ *(?:ghost )?use Rattle\.(\w+)\.specs\.((?!declared)\w+)\.\{([^}]*)\}", re.M)
WORD = re.compile(r"[^\s(){}\[\].,;:λ]+")
# Calls whose clauses are the promises that all others serve: the crate, the function, and what is promised.
GUARANTEES = [
    ("txc_chan", "apply", "an operation on a channel"),
    ("txc_chan", "undo_last", "an undo"),
    ("txc_chan", "show_laws", "the laws of a channel"),
    ("txc_txn_check", "check", "the check of a transaction"),
    ("txc_txn", "run_held", "a run of a transaction"),
    ("txc_table_audit", "audit", "the audit of a report"),
    ("txc_table", "attempt", "an attempt on a table"),
    ("txc_table", "transact", "a transaction of a table that may wait"),
    ("txc_table", "transact_until", "a transaction that waits until a time"),
    ("txc_table", "account", "an account of a table's channel"),
    ("txc_table", "summary", "a summary of a table's channel"),
    ("txc_table", "finish", "the end of a table"),
    ("txc_table", "finish_in_summary", "the end of a table in summary"),
    ("yalwythen_work", "run", "a run of workers"),
    ("yalwythen_work", "serve", "a service"),
    ("yalwythen_work", "drain", "a drain of a channel by a reader"),
    ("txc_cmd_script", "read_script", "the reading of a script"),
    ("txc_cmd_replay", "replay_text", "a replay and its text"),
]
DEFINITION = re.compile(
    r"^(?:(?:abbrev|record|data|unfoldable) )?pub (?!mod |use )(?:(?:abbrev|record|data) )?([^\s:({]+)")


def parameters(text, start):
    """How many parameters a function has, its receiver left out; the list opens behind start."""
    depth, found, begun = 0, [], text.index("(", start) + 1
    for at in range(begun, len(text)):
        sign = text[at]
        if sign in "([{<":
            depth += 1
        elif sign == ")" and depth == 0:
            found.append(text[begun:at])
            break
        elif sign in ")]}" or sign == ">" and text[at - 1] != "-":
            depth -= 1
        elif sign == "," and depth == 0:
            found.append(text[begun:at])
            begun = at + 1
    words = [part.strip() for part in found]
    return sum(1 for word in words if word and not re.fullmatch(r"(?:&(?:'\w+ )?)?(?:mut )?self", word))


def functions(path):
    """Each function of a file: its name, parameters, lines and clauses, and the words and lines of these."""
    lines = path.read_text(encoding="utf-8").splitlines()
    for number, line in enumerate(lines):
        head = FUNCTION.match(line)
        if not head:
            continue
        last, is_open = len(lines), False
        for at in range(number, len(lines)):
            is_open = is_open or lines[at] == head[1] + "{" or at == number and lines[at].endswith("{")
            is_open = is_open or lines[at].startswith(head[1] + ")") and lines[at].endswith("{")
            is_in_one = at == number and lines[at].endswith((";", "}"))
            is_bodiless = not is_open and lines[at].endswith(("};", ");"))
            is_empty = lines[at] == head[1] + "{}"
            if is_in_one or is_bodiless or is_empty or is_open and lines[at] == head[1] + "}":
                last = at + 1
                break
        body = lines[number:last]
        count = parameters("\n".join(body), head.end() - head.start() - len(head[2]))
        clauses = [at for at, it in enumerate(body) if CLAUSE.match(it)]
        opening = body.index(head[1] + "{") if head[1] + "{" in body else len(body)
        promise = body[min(clauses, default=opening):opening]
        promised = {word for it in promise for word in WORD.findall(it)}
        yield head[2], count, len(body), len(clauses), promised, len(promise)


def definitions(text):
    """Each definition of a file: its name, the words of its lines, and how many lines it has."""
    name, words, size, is_mutual = None, set(), 0, False
    for line in text.splitlines():
        if line and not line[0].isspace():
            is_mutual = line == "abbrev mutual"
        # Definitions that name one another stand under one word, two columns in.
        found = DEFINITION.match(line.removeprefix("  ") if is_mutual else line)
        if found:
            if name:
                yield name, words, size
            name, words, size = found[1], set(), 0
        if line.strip() and not line.startswith(("--", "use ")):
            words.update(WORD.findall(line))
            size += 1
    if name:
        yield name, words, size


class Believed:
    """What a reader has to believe of a promise: what its clauses name, what that names, and so on."""

    def __init__(self, defined, text):
        self.text = text
        self.words, self.sizes = {}, {}
        for path, name, words, size in defined:
            self.words[path, name], self.sizes[path, name] = words, size
        self.meanings = {path: self.meanings_in(path) for path in text}

    def meanings_in(self, path):
        """The definition that each word of a file stands for, if it is one's own or imported."""
        found = {name: (home, name) for home, name in self.words if home == path}
        for crate, module, names in IMPORT.findall(self.text[path]):
            for one in names.split(","):
                name, _, other = one.strip().partition(" as ")
                found[other or name] = (Path("crates") / crate / "specs" / (module + ".antt"), name)
        return found

    def lines(self, path, words):
        """How many lines the definitions have that these words of a file's clauses lead to."""
        reached, ahead = set(), [(path, word) for word in words]
        while ahead:
            home, word = ahead.pop()
            meant = self.meanings[home].get(word)
            if meant in self.words and meant not in reached:
                reached.add(meant)
                ahead += [(meant[0], it) for it in self.words[meant]]
        return sum(self.sizes[it] for it in reached)


def show(title, found, names):
    print(f"{len(found):6}  {title}")
    if names:
        for name in found:
            print(f"          {name}")


def main():
    names = "--names" in sys.argv
    asked = [word for word in sys.argv[1:] if not word.startswith("--")]
    crates = sorted(it for it in Path("crates").iterdir()
                    if not it.name.endswith("_tests") and (not asked or it.name in asked))
    sources = [it for crate in crates for it in sorted(crate.glob("src/**/*.rt"))]
    specs = [it for crate in crates for it in sorted(crate.glob("specs/**/*.antt"))]
    proofs = [it for crate in crates for it in sorted(crate.glob("proofs/**/*.antt"))]
    text = {it: it.read_text(encoding="utf-8") for it in sources + specs + proofs}
    every = [(path, *it) for path in sources for it in functions(path)]
    of = lambda it: f"{it[0].relative_to('crates')}: {it[1]}"
    show("functions", every, False)
    show(f"of them with over {MOST_PARAMETERS} parameters", [of(it) for it in every if it[2] > MOST_PARAMETERS], names)
    show(f"of them with over {MOST_LINES} lines, clauses among them", [of(it) for it in every if it[3] > MOST_LINES],
         names)
    show(f"of them with over {MOST_CLAUSES} clauses", [of(it) for it in every if it[4] > MOST_CLAUSES], names)
    wide = lambda paths: [f"{path.relative_to('crates')}:{at}" for path in paths for at, line
                          in enumerate(text[path].splitlines(), 1) if len(line) > MOST_WIDE]
    show(f"lines of sources and definitions with over {MOST_WIDE} characters", wide(sources + specs), names)
    show(f"lines of proofs with over {MOST_WIDE} characters", wide(proofs), False)
    defined = [(path, *it) for path in specs for it in definitions(text[path])]
    homes = defaultdict(list)
    for path, name, _, _ in defined:
        homes[name].append(str(path.relative_to("crates")))
    show("definitions", defined, False)
    show("names of definitions that stand for more than one",
         [f"{name}: {', '.join(paths)}" for name, paths in sorted(homes.items()) if len(paths) > 1], names)
    # What a clause names, and what such a definition names, is what a reader has to believe.
    asked_for = {word for path in sources for word in WORD.findall(text[path])}
    believed, found = set(), asked_for & set(homes)
    while found:
        believed |= found
        found = {word for _, name, words, _ in defined if name in found for word in words} & set(homes) - believed
    show("definitions that no clause needs", sorted(set(homes) - believed), names)
    lines = lambda paths: sum(text[it].count("\n") for it in paths)
    for title, paths in (("sources", sources), ("definitions", specs), ("proofs", proofs)):
        print(f"{lines(paths):6}  lines of {title}")
    print(f"{lines(proofs) / max(lines(sources), 1):6.2f}  lines of proof for each of source")
    believed_of = Believed(defined, {path: text[path] for path in sources + specs})
    for crate, function, promise in GUARANTEES:
        found = [size + believed_of.lines(path, words) for path, name, _, _, _, words, size in every
                 if name == function and path.parts[1] == crate]
        if found:
            print(f"{max(found):6}  lines of clauses and definitions to believe for {promise} ({crate}: {function})")


if __name__ == "__main__":
    main()
PYTHON
