#!/usr/bin/env python3
"""diagrams.py: draws the pictures of docs/pictures/ from the sources.

- `crates.svg` from crates.txt;
- `write.svg` from the functions that a write goes through;
- `jobs.svg` from the table of the ten jobs in docs/SPEED.md;
- the runs from the examples of the same name, as tools/picture does.

WAY lists the functions of a write. Each has to be in its file, and the one before it on the way has to call it, as the
text of its body shows; otherwise nothing is drawn, and the status is 1. tools/pictures.py compares the files with what
would be drawn.
"""

import re
import subprocess
import sys
import textwrap
from functools import cache
from pathlib import Path

from chart import jobs_picture
from drawing import COLOURS, DARK, GREY, LETTER, opening, shape, text
from items import IMPL, Crate, angled, indent_of
from layers import placed

ROOT = Path(__file__).resolve().parent.parent
PICTURES = ROOT / "docs/pictures"
# The height of a box, and from one box of a picture to the next.
MARGIN, BOX, CRATE_ROW, CALL_ROW = 24, 24, 58, 48
# A write, from the words of a command to the report: how deep each call is in the one above it, its file, its name, and
# the functions through which the call goes that aren't drawn.
WAY = [
    (0, "txc_cmd/src/answer.rt", "run_answer", ""),
    (1, "txc_cmd_script/src/read.rt", "read_script", "txc_cmd_answer/src/answer.rt:read_owned"),
    (1, "txc_cmd_threads/src/run.rt", "run_threads", "txc_cmd/src/answer.rt:threads_answer"),
    (2, "txc_base_threads/src/threads.rt", "run_all",
     "txc_cmd_threads/src/run.rt:run_gated txc_cmd_threads/src/pool.rt:work_all "
     "txc_cmd_threads/src/pool.rt:run_jobs"),
    (3, "txc_cmd_threads/src/worker.rt", "serve", "txc_cmd_threads/src/job.rt:perform "
     "txc_cmd_threads/src/job.rt:run_job"),
    (4, "txc_table/src/table/transact.rt", "transact", ""),
    (5, "txc_table/src/table/attempt.rt", "attempt_with", "txc_table/src/table/transact.rt:transact_for"),
    (6, "txc_table/src/table/attempt.rt", "run_held", "txc_table/src/table/attempt.rt:run "
     "txc_table/src/table/attempt.rt:run_in_place"),
    (7, "txc_table_lines/src/guards.rt", "take", ""),
    (8, "txc_table_lock/src/waiting.rt", "lock", "txc_table_lines/src/lines/lock_order.rt:take_line "
     "txc_table_lines/src/lines/lock_order.rt:lock_line "
     "txc_table_line/src/line_guard.rt:take"),
    (7, "txc_table_lines/src/guards.rt", "commit", ""),
    (8, "txc_txn/src/held.rt", "run_pending", ""),
    (9, "txc_txn/src/run.rt", "begin", ""),
    (9, "txc_txn/src/run.rt", "op", "txc_txn/src/run.rt:steps txc_txn/src/run.rt:step"),
    (10, "txc_chan/src/chan.rt", "apply", "txc_table_lines/src/hold.rt:apply txc_table_line/src/locked_line.rt:apply "
     "txc_table_line/src/line_chan.rt:apply"),
    (11, "txc_chan/src/chan/write.rt", "write", ""),
    (12, "txc_queue/src/pair_queue.rt", "push_back", "txc_chan/src/body.rt:write"),
    (8, "txc_table_lines/src/guards.rt", "settle_all", ""),
    (7, "txc_table_lines/src/guards.rt", "release", ""),
    (6, "txc_table_seat/src/history.rt", "keep", ""),
    (6, "txc_table_wait/src/wait_queue.rt", "notify", ""),
    (2, "txc_table/src/table/idle.rt", "finish", "txc_cmd_threads/src/run.rt:run_gated "
     "txc_cmd_threads/src/closing.rt:close"),
    (1, "txc_cmd_report/src/report.rt", "report_text", "txc_cmd/src/answer.rt:threads_answer "
     "txc_cmd/src/answer.rt:run_outcome_answer txc_cmd_answer/src/answer.rt:outcome_answer"),
]


class Astray(Exception):
    """The way of a write isn't what WAY says."""


@cache
def source_of(path):
    """The file of a crate."""
    crate = Crate(path.split("/")[0], ROOT / "crates" / path.split("/")[0] / "src", ".rt", {})
    source = crate.source(Path(path).with_suffix("").parts[2:])
    if source is None:
        raise Astray(f"crates/{path} isn't there")
    return source


def function(path, name):
    """A function of a file: its name with that of its type, its body, and the first sentence of its comment."""
    source = source_of(path)
    blocks = [(None, source.heads)]
    for head in source.heads:
        if head.word == "impl":
            found = IMPL.match(angled(source.code(head)[0].removeprefix("impl"))[1].strip())
            blocks.append((found["name"], source.heads_in(head.start + 1, head.end - 1, 4)))
    for owner, heads in blocks:
        for head in heads:
            if head.word == "fn" and head.name == name:
                at, docs = head.start, [*head.docs]
                while not head.docs and source.lines[at - 1].strip().startswith("//"):
                    at -= 1
                    docs.insert(0, source.lines[at].strip()[2:].strip())
                first = re.split(r"(?<=\.) ", " ".join(docs).replace("`", ""))[0]
                body = next(row for row in range(head.start, head.end)
                            if source.lines[row].rstrip().endswith("{") and indent_of(source.lines[row])
                            == indent_of(source.lines[head.start]))
                return (f"{owner}::{name}" if owner else name), "\n".join(source.masked[body:head.end]), first
    raise Astray(f"crates/{path} has no function `{name}`")


def check_call(chain):
    """That each function of a chain calls the next one."""
    for (path, name), (_, called) in zip(chain, chain[1:]):
        if not re.search(rf"\b{called}(?:::<[^;]*?>)?\(", function(path, name)[1]):
            raise Astray(f"`{name}` of crates/{path} doesn't call `{called}`")


def stations():
    """The functions of the way: how deep each is, its crate, its name, and what it does."""
    callers = []
    for depth, path, name, through in WAY:
        between = [tuple(step.split(":")) for step in through.split()]
        if depth:
            check_call([callers[depth - 1], *between, (path, name)])
        callers[depth:] = [(path, name)]
        called, _, does = function(path, name)
        yield depth, path.split("/")[0], called, does


def write_picture():
    """The way of a write, each call below and to the right of the one that makes it."""
    rows, width = list(stations()), 940
    crates = list(dict.fromkeys(crate for _, crate, _, _ in rows))
    height = 66 + CALL_ROW * len(rows) + MARGIN
    yield opening(width, height, "The way of one write")
    yield shape("rect", width=width, height=height, fill="#ffffff")
    yield text(MARGIN, 30, "The way of one write", 15, weight="bold")
    yield text(MARGIN, 48, "each function below the one that calls it, from the command to the report; the colours are "
               "the crates", 11, GREY)
    corners = []
    for number, (depth, crate, name, does) in enumerate(rows):
        x, y, colour = MARGIN + 24 * depth, 66 + CALL_ROW * number, COLOURS[crates.index(crate) % len(COLOURS)]
        if depth:
            above = corners[depth - 1]
            line = f"M{above[0] + 10} {above[1] + BOX} V{y + BOX / 2} H{x}"
            yield shape("path", d=line, fill="none", stroke="#999999")
        corners[depth:] = [(x, y)]
        label = f"{number + 1}  {name}"
        yield shape("rect", x=x, y=y, width=len(label) * LETTER + 16, height=BOX, rx=3, fill="#ffffff", stroke=colour)
        yield text(x + 8, y + 16, label, weight="bold")
        yield text(x + len(label) * LETTER + 26, y + 16, crate, 11, colour)
        words = textwrap.wrap(does, int((width - x - 40) / 6.1))
        yield text(x + 22, y + BOX + 14, words[0] + (" .." if len(words) > 1 else ""), 10, GREY)
    yield "</svg>"


def crate_uses():
    """What each crate of crates.txt uses of the others, those of tests left out; programs that are examples are one."""
    uses = {}
    for line in (ROOT / "crates.txt").read_text(encoding="utf-8").splitlines():
        found = re.match(r"(\w+)[^:]*:(.*)", line)
        if found and not found[1].endswith("_tests"):
            uses[found[1]] = found[2].split()
    examples = [name for name, others in uses.items() if "yalwythen" in others]
    for name in examples:
        del uses[name]
    uses[", ".join(examples)] = ["yalwythen"]
    return {name: [other for other in others if other in uses] for name, others in uses.items()}


def about(name):
    """The first sentence of a crate's page."""
    file = ROOT / "crates" / name / "src/lib.rt"
    lines = file.read_text(encoding="utf-8").splitlines() if file.exists() else []
    return re.split(r"(?<=\.) ", " ".join(line[3:].strip() for line in lines if line.startswith("//!")))[0] or None


def label_of(name):
    return name.removeprefix("txc_")


def edge(points):
    """A line through points, upright in each of them."""
    path = f"M{points[0][0]:.1f} {points[0][1]:.1f}"
    for (x, y), (x2, y2) in zip(points, points[1:]):
        middle = (y + y2) / 2
        path += f" C{x:.1f} {middle:.1f} {x2:.1f} {middle:.1f} {x2:.1f} {y2:.1f}"
    return shape("path", d=path, fill="none", stroke="#9aa5b1")


def crates_picture():
    """The crates, each above those that it uses."""
    uses = crate_uses()
    places, routes = placed(uses, lambda name: len(label_of(name)) * LETTER + 16)
    top = max(level for _, level in places.values())

    def point(name, side):
        x, level = places[name]
        return MARGIN + x, 72 + CRATE_ROW * (top - level) + (side if isinstance(name, str) else BOX / 2)

    right = max(x + (len(label_of(name)) * LETTER / 2 + 8 if isinstance(name, str) else 2)
                for name, (x, _) in places.items())
    width, height = max(right + 2 * MARGIN, 640), 72 + CRATE_ROW * top + BOX + MARGIN
    yield opening(width, height, "The crates")
    yield shape("rect", width=width, height=height, fill="#ffffff")
    yield text(MARGIN, 30, "The crates", 15, weight="bold")
    yield text(MARGIN, 48, "each above those that it uses, as crates.txt says; those in grey begin with txc_", 11, GREY)
    for route in routes.values():
        yield edge([point(name, BOX if at == 0 else 0) for at, name in enumerate(route)])
    for name in uses:
        x, y = point(name, 0)
        wide = len(label_of(name)) * LETTER + 16
        is_txc = name.startswith("txc_")
        yield shape("rect", about(name), x=x - wide / 2, y=y, width=wide, height=BOX, rx=3,
                    fill="#f5f7fa" if is_txc else "#e3eefa", stroke="#444444")
        yield text(x - wide / 2 + 8, y + 16, label_of(name), 11, DARK, "normal" if is_txc else "bold")
    yield "</svg>"


def drawn():
    """The pictures that are drawn from the sources, by the names of their files."""
    pictures = {"crates.svg": crates_picture(), "write.svg": write_picture(), "jobs.svg": jobs_picture()}
    return {name: "\n".join(lines) + "\n" for name, lines in pictures.items()}


def main():
    try:
        pictures = drawn()
    except Astray as error:
        print(f"diagrams.py: {error}", file=sys.stderr)
        return 1
    for name, picture in pictures.items():
        (PICTURES / name).write_text(picture, encoding="utf-8")
    for file in sorted(PICTURES.glob("*.svg")):
        script = ROOT / "examples" / (file.stem + ".json")
        if file.name not in pictures and script.exists():
            words = [ROOT / "tools/picture", script, script.with_suffix(".report")]
            file.write_bytes(subprocess.run(words, check=True, stdout=subprocess.PIPE).stdout)
    print(f"docs/pictures: {len(list(PICTURES.glob('*.svg')))} pictures")
    return 0


if __name__ == "__main__":
    sys.exit(main())
