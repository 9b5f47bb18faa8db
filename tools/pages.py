#!/usr/bin/env python3
"""Whether what the pages show is so: those at the top, in docs/ and below it, in scripts/ and in bench/.

- Each script in a page is one of examples/, which `./test` runs.
- Each part of a report in a page is a part of the report of an example.
- Each block of Rust is a run of lines of a source of a program in crates/, set in by more or by less, all alike.
- A block that begins with `$ cd crates/NAME && rt run` goes on with all that `./test` wants that program to print.
- Each link leads to a file of the repository and, behind '#', to a heading of it.
- Each file that a page names by its path from the top is there, where the path has no capitals or stars in it that
  stand for others.
- The records of docs/decisions/ are numbered without a gap, and the index there has a row for each, with its title.
- How many lines a promise asks to believe, in a row with that promise, its call and a number, is what
  tools/measures.sh counts.
- The crates that a heading of docs/GUARANTEES.md names have each function, file and clause that a row below it names.
- The pages that are read by all, WORDY, have at most MOST_WORDS words in all. This number may only fall. A word is a
  piece of text between spaces with a letter or a digit in it, outside of the blocks between ```.
- The list of calls without a clause in docs/GUARANTEES.md is that of tools/unclaused.py.
- These pages and the comments of crates/*/src and crates/*/specs use the words AVOIDED, and the comments ONLY_A_PLACE
  too, at most MOST_AVOIDED times in all. This number may only fall. Code between backticks does not count.

Each of these counts by itself. The last line is 'N passed, M failed'.
"""

import json
import re
import subprocess
import sys
from functools import cache
from pathlib import Path
from textwrap import dedent

sys.dont_write_bytecode = True
import unclaused

ROOT = Path(__file__).resolve().parent.parent
# Those of docs/reference/ are made, and compared with the sources, by tools/reference.py.
PLACES = ["*.md", "docs/*.md", "docs/decisions/*.md", "scripts/*.md", "bench/*.md", "tools/*.md", "bindings/*.md"]
PAGES = [page for place in PLACES for page in sorted(ROOT.glob(place))]
WORDY = [page for page in PAGES if page.parent in (ROOT, ROOT / "docs")]
MOST_WORDS = 17320
MOST_AVOIDED = 9
AVOIDED = (r"stands|answers|told|so\s+many|behind|beside|whoever|of\s+which|as\s+it\s+is|want\s+of|let\s+go"
           r"|takes\s+(?:no\s+)?memory")
# In a comment this word mostly begins a condition, and should be "if" or "when".
ONLY_A_PLACE = "where"
# A line that is a comment, and a comment after a definition: its text.
COMMENT = re.compile(r"^ *(?://[/!]?|--)(?: (.*))?$|  -- (.*)$", re.MULTILINE)
# A block of a page: its language, and its text.
BLOCK = re.compile(r"^```(\w*)\n(.*?)^```$", re.MULTILINE | re.DOTALL)
REPORT = re.compile(r"(seat|chan) \d+ |end (done|stalled|stopped)$")
RUN = re.compile(r"\$ cd crates/(\w+) && rt run\n")
# A row of a page, and a line of tools/measures.sh: what is promised, by which call, and the lines to believe.
BELIEVED = re.compile(r"^\| (.+) \| `(\w+)` of `(\w+)` \| (\d+) \|$", re.MULTILINE)
# A row of docs/GUARANTEES.md: where its claim is to be found. Then the names there, and those of clauses, in brackets.
CLAIMED = re.compile(r"^\| .* \| (.*) \| .* \|$")
NAMED = re.compile(r"`([\w:./]+)`(?![^()]*\))")
CLAUSES = re.compile(r"`([\w.]+)`(?=[^()]*\))")
COUNTED = re.compile(r"^ *(\d+)  lines of clauses and definitions to believe for (.+) \((\w+): (\w+)\)$", re.MULTILINE)


def anchors(text):
    """The headings of a page as links name them."""
    headings = re.findall(r"^#+ (.*)$", BLOCK.sub("", text), re.MULTILINE)
    return {re.sub(r"[^\w\- ]", "", heading.lower()).replace(" ", "-") for heading in headings}


def wrong_script(text):
    examples = [json.loads(file.read_text()) for file in ROOT.glob("examples/*.json")]
    return None if json.loads(text) in examples else f"a script that is none of examples/: {text[:80]!r}"


def report_in(block):
    """The lines of a report in a block, without the command that prints it; none where it has another text."""
    lines = [line for line in block.splitlines(keepends=True) if not line.startswith("$ ")]
    return "".join(lines) if lines and REPORT.match(lines[0]) else None


def wrong_report(part):
    reports = ["\n" + file.read_text() for file in ROOT.glob("examples/*.report")]
    return None if any("\n" + part in report for report in reports) else f"a report that no example has: {part[:80]!r}"


def has_lines(source, code):
    """Whether a source has these lines, one behind the other."""
    lines, count = source.splitlines(), len(code.splitlines())
    return any(dedent("\n".join(lines[at:at + count])) == code for at in range(len(lines) - count + 1))


def wrong_code(block):
    programs = [main.parent for main in ROOT.glob("crates/*/src/main.rt")]
    code = dedent(block).rstrip("\n")
    sources = [file for program in programs for file in program.glob("**/*.rt")]
    sources += ROOT.glob("bindings/rust/examples/*.rs")
    found = any(has_lines(file.read_text(), code) for file in sources)
    return None if found else f"Rust that no program has: {block[:80]!r}"


def wrong_run(name, printed):
    wanted = ROOT / "crates" / name / "stdout"
    return None if wanted.exists() and printed == wanted.read_text() else f"{name} prints something else"


def wrong_link(page, link):
    path, _, anchor = link.partition("#")
    file = (page.parent / path).resolve() if path else page
    if not file.exists():
        return f"a link to nothing: {link}"
    return None if not anchor or anchor in anchors(file.read_text()) else f"a link to no heading: {link}"


def wrong_name(name):
    return None if (ROOT / name).exists() else f"a file that isn't there: {name}"


@cache
def counted():
    """What tools/measures.sh counts for each promise: the promise, its crate and its call, and the lines."""
    ran = subprocess.run([ROOT / "tools" / "measures.sh"], check=True, stdout=subprocess.PIPE, text=True)
    return {(promise, crate, call): lines for lines, promise, crate, call in COUNTED.findall(ran.stdout)}


def wrong_count(promise, call, crate, lines):
    is_so = counted().get((promise, crate, call)) == lines
    return None if is_so else f"{lines} lines to believe for {promise}, which tools/measures.sh doesn't count so"


def wrong_record(number, record, index):
    """What is wrong with the record that has this number among the files of docs/decisions/, in order."""
    title = record.read_text().partition("\n")[0].removeprefix("# ")
    if not record.name.startswith(f"{number:03}-") or not title.startswith(f"{number:03} "):
        return f"a record that should have the number {number:03}: {record.name}"
    row = f"| {number:03} | [{title[4:]}]({record.name}) |"
    return None if row in index.splitlines() else f"no row of the index: {row}"


def wrong_records():
    """What is wrong with each record of docs/decisions/, or none."""
    records = sorted(ROOT.glob("docs/decisions/[0-9]*.md"))
    index = (ROOT / "docs/decisions/README.md").read_text()
    return [wrong_record(number, record, index) for number, record in enumerate(records, 1)]


@cache
def sources(crate):
    """The sources, definitions and proofs of a crate, in one text."""
    files = [file for folder in ("src", "specs", "proofs") for file in (ROOT / "crates" / crate / folder).rglob("*.*t")]
    return "".join(file.read_text() for file in files)


def clauses_of(function, text):
    """The text from the head of each function of this name to its body."""
    return "".join(re.findall(rf"\bfn {function}\b.*?(?:;|^ *{{)$", text, re.MULTILINE | re.DOTALL))


def wrong_claim(row, crates):
    """What is named where the claim of this row is to be found, and isn't in these crates; or none."""
    text = "".join(sources(crate) for crate in crates)
    names = NAMED.findall(row)
    for name in names:
        places = [ROOT, *(ROOT / "crates" / crate for crate in crates)]
        is_there = any((place / name).exists() for place in places) if "/" in name else (
            re.search(rf"\b{name.split('::')[-1]}\b", text))
        if not is_there:
            return f"{name}, which isn't in {', '.join(crates)}"
    heads = "".join(clauses_of(name.split("::")[-1], text) for name in names) or text
    for clause in CLAUSES.findall(row):
        is_there = re.search(rf"\b(?:ensures|requires)\*? {clause} {{", heads) or clause[0].isupper() and clause in text
        if not is_there:
            return f"a clause {clause}, which {', '.join(names) or ', '.join(crates)} doesn't have"
    return None


def wrong_claims(text):
    """What is wrong with each row below a heading that names crates, or none."""
    crates = []
    for line in text.splitlines():
        row = CLAIMED.match(line)
        if line.startswith("#"):
            crates = [name for name in re.findall(r"\w+", line) if (ROOT / "crates" / name).is_dir()]
        elif crates and row and "`" in row[1] and row[1] != "`./test`":
            yield wrong_claim(row[1], crates)


def wrong_length():
    words = sum(len(re.findall(r"\S*\w\S*", BLOCK.sub("", page.read_text()))) for page in WORDY)
    return None if words <= MOST_WORDS else f"the pages have {words} words; at most {MOST_WORDS} are allowed"


def prose_of(text):
    """The text without its blocks and without code between backticks."""
    return re.sub(r"`[^`\n]*`", "", BLOCK.sub("", text))


def comments_of(source):
    """The text of all comments of a source or of definitions."""
    return "\n".join(line or after for line, after in COMMENT.findall(source))


def avoided_in(text, words):
    return len(re.findall(rf"\b(?:{words})\b", prose_of(text), re.IGNORECASE))


def wrong_words():
    files = [file for place in ("src/**/*.rt", "specs/**/*.antt") for file in ROOT.glob(f"crates/*/{place}")]
    in_pages = sum(avoided_in(page.read_text(), AVOIDED) for page in WORDY)
    in_comments = sum(avoided_in(comments_of(file.read_text()), f"{AVOIDED}|{ONLY_A_PLACE}") for file in files)
    total = in_pages + in_comments
    return None if total <= MOST_AVOIDED else (
        f"the pages and comments use avoided words {total} times ({in_pages} and {in_comments}); "
        f"at most {MOST_AVOIDED} are allowed: rewrite the sentences with them (AVOIDED in tools/pages.py)")


def findings(page):
    """What each thing that a page shows is found to be: what is wrong with it, or none."""
    text = page.read_text()
    prose = BLOCK.sub("", text)
    for language, block in BLOCK.findall(text):
        run = RUN.match(block)
        if language == "json":
            yield wrong_script(block)
        elif language == "rust":
            yield wrong_code(block)
        elif run:
            yield wrong_run(run[1], block[run.end():])
        elif report_in(block):
            yield wrong_report(report_in(block))
    for link in re.findall(r"\]\(([^)\s]+)\)", prose):
        if not link.startswith("http"):
            yield wrong_link(page, link)
    for name in re.findall(r"`(?:\./)?((?:crates|docs|examples|scripts|tools|bench)/[a-z0-9_./-]+)(?=[` ])", prose):
        yield wrong_name(name)
    for row in BELIEVED.findall(prose):
        yield wrong_count(*row)
    if page == ROOT / "docs/decisions/README.md":
        yield from wrong_records()
    if page == ROOT / "docs/GUARANTEES.md":
        yield from wrong_claims(text)
        yield None if unclaused.is_up_to_date() else "a list of calls without a clause: run tools/unclaused.py --write"
    if page == ROOT / "README.md":
        yield wrong_length()
        yield wrong_words()


def main():
    passed = failed = 0
    for page in PAGES:
        for wrong in findings(page):
            passed += wrong is None
            failed += wrong is not None
            if wrong:
                print(f"{page.relative_to(ROOT)}: {wrong}")
    print(f"{passed} passed, {failed} failed")
    return 1 if failed else 0


if __name__ == "__main__":
    sys.exit(main())
