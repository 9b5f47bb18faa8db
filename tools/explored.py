#!/usr/bin/env python3
"""explored.py [COUNT [SEED]]: compares what the proved program prints for `explore` with the reference model
(tools/orders.py), for the valid scripts of scripts/ and examples/ and for COUNT random ones from SEED: 500 from 37 if
none are given.

- The ends are those of a search that keeps items and replies apart, which the program does not.
- Each printed order leads to its end.
- The text and the status are those of `./try explore`.

A script is left out if that search takes MOST orders. The random scripts must have each kind of end, and scripts with
several ends. Each script counts by itself. The last line is 'N passed, M failed'.
"""
import collections
import concurrent.futures
import json
import os
import random
import re
import sys
from pathlib import Path

sys.dont_write_bytecode = True
import answer
import hostile
import orders
import play
import reading

ROOT = Path(__file__).resolve().parent.parent
SHOWN = 10
MOST = 4000
KINDS = ("TQueue", "TBQueue", "TChan", "TMQueue", "TBMQueue", "TMChan")
END = re.compile(r"^end (\w+) by((?: \d+)*)\n((?:seat .*\n)*)", re.MULTILINE)


def stored():
    """The valid stored scripts, each with its name."""
    for file in sorted([*ROOT.glob("scripts/*.json"), *ROOT.glob("examples/*.json")]):
        text = file.read_bytes()
        if not reading.line(text).startswith("fault"):
            yield str(file.relative_to(ROOT)), text


def drawn_channel(rng):
    kind = rng.choice(KINDS)
    channel = {"kind": kind}
    if kind in play.BOUNDED:
        channel["bound"] = rng.randint(0, 2)
    elif "Chan" in kind:
        channel["readers"] = rng.randint(0, 2)
    return channel


def names_for(kind):
    """The names of the operations of a kind; some more often than others."""
    names = ["write"] * 4 + ["read"] * 4 + ["try-read", "peek", "put-back", "is-empty"]
    names += ["close", "close", "is-closed"] if "M" in kind else []
    names += ["is-full"] if "B" in kind else []
    names += {"TBMQueue": ["try-write"], "TBQueue": ["length", "flush"], "TQueue": ["flush"]}.get(kind, [])
    return names + (["dup", "dup", "clone"] if "Chan" in kind else [])


def drawn_step(rng, channels):
    number = rng.randrange(len(channels))
    kind = channels[number]["kind"]
    name = rng.choice(names_for(kind))
    reader = [rng.randint(0, 2)] if "Chan" in kind and rng.random() < 0.5 else []
    if name in ("write", "try-write"):
        return [name, number, rng.choice((1, 2, 3, "last"))]
    if name == "put-back":
        return [name, number, *reader, rng.choice((4, "last"))]
    return [name, number, *(reader if name in ("read", "try-read", "peek", "is-empty", "clone") else [])]


def drawn_steps(rng, channels, depth=0):
    steps = []
    for _ in range(rng.choice((1, 1, 1, 2, 2, 3))):
        drawn = rng.random()
        if drawn < 0.12 and depth < 2:
            steps.append(["or", *(drawn_steps(rng, channels, depth + 1) for _ in range(rng.randint(0, 3)))])
        else:
            steps.append(["retry"] if drawn < 0.15 else drawn_step(rng, channels))
    return steps


def drawn_scripts(count, seed):
    """Small random scripts, each with its name."""
    rng = random.Random(seed)
    for number in range(count):
        channels = [drawn_channel(rng) for _ in range(rng.randint(1, 3))]
        seats = [[drawn_steps(rng, channels) for _ in range(rng.randint(1, 3))] for _ in range(rng.randint(2, 4))]
        text = json.dumps({"version": 1, "channels": channels, "seats": seats})
        yield f"random script {number}: {text[:1000]}", text.encode()


def ends_in(text):
    """The ends in what the program printed: the word, the lines and the order of each."""
    return [(word, tuple(lines.splitlines()), tuple(map(int, order.split()))) for word, order, lines in END.findall(text)]


def is_right(script, found, printed):
    """Whether the ends in a text are those that were found, each once, and each printed order leads to its end."""
    ends = [(orders.follow(script, order), (word, lines)) for word, lines, order in ends_in(printed)]
    led = all(end is not None and (end.word, end.lines) == told for end, told in ends)
    return led and collections.Counter(end for end, _ in ends) == collections.Counter(found)


def compared(case):
    """What is wrong with what the program prints for a script, or none; and the words of its ends. No words if the
    script is left out."""
    name, text = case
    script = reading.tree_of(text)
    found = orders.ends(script, identity=lambda state: state, most=MOST)
    if found is None:
        return None, []
    printed, status = hostile.answer(text, "explore")
    wanted, wanted_status = answer.answer("explore", text)
    distinct = {end for end, _ in found}
    if (printed, status) != (wanted.encode(), wanted_status):
        return f"{name}: the program printed {printed[:1000]!r}, status {status}; the model {wanted[:1000]!r}", ["wrong"]
    if not is_right(script, distinct, printed.decode()):
        return f"{name}: the program printed {printed[:1000]!r}, but the ends are {distinct}", ["wrong"]
    return None, [end.word for end in distinct]


def main(count=500, seed=37):
    if not hostile.is_built():
        print("there is no program to run\n0 passed, 1 failed")
        return 1
    cases = [*stored(), *drawn_scripts(count, seed)]
    with concurrent.futures.ProcessPoolExecutor(len(os.sched_getaffinity(0))) as pool:
        results = list(pool.map(compared, cases, chunksize=8))
    wrong = [what for what, _ in results if what]
    words = [set(words) for _, words in results if words]
    several = sum(len(words) > 1 for _, words in results)
    missing = [word for word in answer.STATUSES if not any(word in it for it in words)]
    missing += [] if several else ["several"]
    for what in [*wrong[:SHOWN], *(f"no script has these ends: {it}" for it in missing)]:
        print(what)
    left_out = sum(not words for _, words in results)
    print(f"{left_out} scripts were left out; {several} have several ends")
    print(f"{len(words) - len(wrong)} passed, {len(wrong) + len(missing)} failed")
    return 1 if wrong or missing else 0


if __name__ == "__main__":
    sys.exit(main(*map(int, sys.argv[1:3])))
