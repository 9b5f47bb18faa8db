#!/usr/bin/env python3
"""model.py [COUNT [SEED]]: compares the reference model, by which ./try answers (tools/answer.py), with the proved
program: what both print, and their status.

- The scripts of scripts/ and examples/, by `check` and `replay`, and by `run` if the order of the threads makes no
  difference: for one seat, and for an invalid script.
- The cases of scripts/*.cases, by `check`.
- COUNT valid random scripts from SEED, by `replay`: 6,000 from 29 if none are given. Each reply, each cause and each
  end must be among their reports.

tools/hostile.py compares 6,000 broken scripts, and tools/explored.py what `explore` prints. Each comparison counts by itself. The last line is
'N passed, M failed'.
"""
import collections
import concurrent.futures
import os
import random
import re
import sys
from pathlib import Path

sys.dont_write_bytecode = True
import answer
import hostile

ROOT = Path(__file__).resolve().parent.parent
SHOWN = 10
# How many transactions a seat of a random script has.
TRANSACTIONS = (0, 1, 2, 3, 4, 6, 9)
# What the reports of random scripts must have: replies, causes of a stall, stops, and ends.
REPLIES = ("done", "full", "empty", "closed", "got", "true", "false", "reader", "count", "all")
WANTED = (*(f"kept {it}" for it in REPLIES), *(f"stalled {it}" for it in ("full", "empty", "asked")),
          *(f"stopped {it}" for it in ("no-reader", "nothing-read", "too-many-readers")),
          *(f"end {it}" for it in ("done", "stalled", "stopped")))
# A line of a seat or the last line of a report: what happened, and its replies or its cause.
LINE = re.compile(r"^(?:seat \d+ txn \d+ )?(kept|stalled|stopped|end):? ?(.*)$", re.MULTILINE)


def stored():
    """What is compared of the stored scripts: a name, a word and a script each."""
    for file in sorted([*ROOT.glob("scripts/*.json"), *ROOT.glob("examples/*.json")]):
        script = file.read_bytes()
        checked, _ = answer.answer("check", script)
        is_determined = checked.startswith("fault") or " 1 seats " in checked
        for word in ("check", "replay", "run") if is_determined else ("check", "replay"):
            yield f"{word} {file.relative_to(ROOT)}", word, script
    for file in sorted(ROOT.glob("scripts/*.cases")):
        for number, line in enumerate(file.read_bytes().split(b"\n"), 1):
            if b"\t" in line and not line.startswith(b"#"):
                yield f"{file.relative_to(ROOT)}, line {number}", "check", line.partition(b"\t")[2]


def valid(count, seed):
    """Valid random scripts."""
    rng = random.Random(seed)
    for number in range(count):
        script = hostile.written(rng, hostile.good_script(rng, TRANSACTIONS)).encode()
        yield f"random script {number}: {script[:1000]!r}", "replay", script


def seen_in(text):
    """What a report has of WANTED."""
    for what, words in LINE.findall(text):
        yield from (f"{what} {it.split()[0]}" for it in words.split("; ") if it)


def main(count=6000, seed=29):
    if not hostile.is_built():
        print("there is no program to run\n0 passed, 1 failed")
        return 1
    every = [*stored(), *valid(count, seed)]
    with concurrent.futures.ThreadPoolExecutor(len(os.sched_getaffinity(0))) as pool:
        answers = pool.map(lambda it: hostile.answer(it[2], it[1]), every)
        models = [answer.answer(word, script) for _, word, script in every]
    wrong, seen = 0, collections.Counter()
    for (name, _, _), (printed, status), (text, wanted) in zip(every, answers, models):
        seen.update(seen_in(text))
        if (printed, status) != (text.encode(), wanted):
            wrong += 1
            if wrong <= SHOWN:
                print(f"{name}: the program printed {printed[:1000]!r}, status {status};"
                      f" the model {text[:1000]!r}, status {wanted}")
    missing = [it for it in WANTED if not seen[it]]
    for it in missing:
        print(f"no report has: {it}")
    print(f"{len(every) - wrong} passed, {wrong + len(missing)} failed")
    return 1 if wrong or missing else 0


if __name__ == "__main__":
    sys.exit(main(*map(int, sys.argv[1:3])))
