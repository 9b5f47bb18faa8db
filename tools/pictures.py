#!/usr/bin/env python3
"""Whether tools/picture draws each example as its report tells it, and tells in one line what it can't draw.

A picture has to be well-formed, with an arrow for each item that the report says was taken, a line to the foot of a
lane for each that is left, and a box for each transaction that was kept and each seat that stalled or was stopped; no
text stands on another one or beyond the edge. The pictures of docs/pictures/ have to be those that the tool draws now,
or that tools/diagrams.py draws of the sources. What is wanted is counted in the reports, without the tool's modules.
The last line is 'N passed, M failed'.
"""

import itertools
import re
import subprocess
import sys
import tempfile
from pathlib import Path
from xml.etree import ElementTree

import diagrams

ROOT = Path(__file__).resolve().parent.parent
SVG = "{http://www.w3.org/2000/svg}"
# How wide a letter of the font is, and how far it reaches up and down, as parts of its size.
LETTER, UP, DOWN = 0.602, 0.75, 0.2

# Reports of examples/race.json that `replay` doesn't print: one that threads may give, and one that nothing gives.
RACE = """seat 0 txn 0 kept: done
seat 0 txn 1 kept: done
seat 1 txn 0 kept: got w%d@0=%d
seat 2 txn 0 kept: got w0@0=1
chan 0 TQueue open put 2 took 2 other 0
chan 0 reader 0 left:
end done
"""


def drawn(script, report):
    run = subprocess.run([ROOT / "tools/picture", script, report], capture_output=True, timeout=60, check=False)
    return run.stdout.decode(), run.stderr.decode(), run.returncode


def wanted(report):
    """How many items were taken and are left, and how many transactions were kept and seats ended before their time."""
    left = re.findall(r"^chan \d+ reader \d+ left:(.*)$", report, re.MULTILINE)
    return {"taken": sum(map(int, re.findall(r" took (\d+) ", report))),
            "left": sum(len(items.split()) for items in left),
            "kept": len(re.findall(r" kept:", report)),
            "ended": len(re.findall(r" (?:stalled|stopped): ", report))}


def found(tree):
    """The same of a picture."""
    count = dict.fromkeys(("taken", "left", "kept", "ended"), 0)
    for path in tree.iter(SVG + "path"):
        if path.get("class"):
            count[path.get("class")] += 1
    for text in tree.iter(SVG + "text"):
        box = re.fullmatch(r"txn \d+(| (?:stalled|stopped): .*)", text.text)
        if box:
            count["ended" if box[1] else "kept"] += 1
    return count


def extent(text):
    x, y, size = (float(text.get(name)) for name in ("x", "y", "font-size"))
    return x, y - UP * size, x + LETTER * size * len(text.text), y + DOWN * size


def misplaced(tree):
    """A text that stands on another one, or beyond the edge."""
    texts = [(extent(text), text.text) for text in tree.iter(SVG + "text")]
    for (left, top, right, bottom), words in texts:
        if left < 0 or top < 0 or right > float(tree.get("width")) or bottom > float(tree.get("height")):
            return f"beyond the edge: {words}"
    for (one, words), (other, more) in itertools.combinations(texts, 2):
        if one[0] < other[2] and other[0] < one[2] and one[1] < other[3] and other[1] < one[3]:
            return f"one on the other: {words} and {more}"
    return None


def wrong_picture(script, report):
    """What is wrong with the picture of a script; none where it is right."""
    printed, said, status = drawn(script, report)
    if (said, status) != ("", 0):
        return f"status {status}, said {said!r}"
    try:
        tree = ElementTree.fromstring(printed)
    except ElementTree.ParseError as error:
        return f"no XML: {error}"
    if found(tree) != wanted(report.read_text()):
        return f"drawn {found(tree)}, and the report tells {wanted(report.read_text())}"
    kept = ROOT / "docs/pictures" / script.with_suffix(".svg").name
    if kept.exists() and kept.read_text() != printed:
        return f"{kept.relative_to(ROOT)} is another picture"
    return misplaced(tree)


def wrong_diagrams():
    """What is wrong with each picture of the sources; none where it is right."""
    try:
        pictures = diagrams.drawn()
    except diagrams.Astray as error:
        return {"pictures of the sources": str(error)}
    wrong = {}
    for name, picture in pictures.items():
        file = ROOT / "docs/pictures" / name
        is_same = file.exists() and file.read_text(encoding="utf-8") == picture
        wrong[name] = misplaced(ElementTree.fromstring(picture)) if is_same else "stale: run tools/diagrams.py"
    return wrong


def wrong_refusal(words):
    printed, said, status = drawn(*words)
    is_refusal = (printed, status) == ("", 1) and re.fullmatch(r"picture: .+\n", said)
    return None if is_refusal else f"status {status}, printed {printed[:80]!r}, said {said!r}"


def main():
    examples = sorted((ROOT / "examples").glob("*.json"))
    hello, race = ROOT / "examples/hello.json", ROOT / "examples/race.json"
    with tempfile.TemporaryDirectory() as place:
        threads, nothing = Path(place) / "threads", Path(place) / "nothing"
        threads.write_text(RACE % (1, 2))
        nothing.write_text(RACE % (0, 1))
        wrong = {f"picture of {script.name}": wrong_picture(script, script.with_suffix(".report"))
                 for script in examples}
        wrong["picture of threads"] = wrong_picture(race, threads)
        refused = {"of another script": (hello, race.with_suffix(".report")), "of no order": (race, nothing),
                   "of no script": (threads, threads), "of no file": (hello, Path(place) / "none"),
                   "of a folder": (place, threads), "of no report": (hello, hello)}
        wrong.update({f"refusal {name}": wrong_refusal(words) for name, words in refused.items()})
    drawings = wrong_diagrams()
    names = {*drawings, *(script.stem + ".svg" for script in examples)}
    pictures = [file.name for file in (ROOT / "docs/pictures").iterdir() if file.name not in names]
    wrong |= {**drawings, "docs/pictures": f"of no example and no source: {pictures}" if pictures else None}
    failed = {name: what for name, what in wrong.items() if what}
    print("".join(f"{name}: {what}\n" for name, what in failed.items()), end="")
    print(f"{len(wrong) - len(failed)} passed, {len(failed)} failed")
    return 1 if failed else 0


if __name__ == "__main__":
    sys.exit(main())
