#!/usr/bin/env python3
"""answer.py check|replay|explore|run < script: prints what `chanrun` prints for a script, with its status, by the
reference model: tools/reading.py reads the script, tools/play.py runs it, and tools/orders.py finds the ends of all its
orders. It shares no code with the proved program. `run` prints the report of the round-robin order, which is that of
`replay`; the program may print another one.
"""
import collections
import os
import sys

sys.dont_write_bytecode = True
import orders
import play
import reading

USAGE = "usage: chanrun check|replay|run < script"
WORDS = ("check", "replay", "explore", "run")
STATUSES = {"done": 0, "stopped": 1, "stalled": 3}


def answer(word, script):
    """What the program prints for the bytes of a script, and its status."""
    line = reading.line(script)
    if line.startswith("fault"):
        return line + "\n", 1
    if word == "check":
        return line + "\n", 0
    if word == "explore":
        return explored(orders.ends(reading.tree_of(script)))
    lines, end = report(reading.tree_of(script))
    return "".join(f"{it}\n" for it in [*lines, f"end {end}"]), STATUSES[end]


def report(script):
    """The lines of the report of a valid script without the last one, and how it ends."""
    seats, chans = script["seats"], tuple(map(play.opened, script["channels"]))
    events, left = play.by_rounds(seats, chans)
    lines = []
    for seat in range(len(seats)):
        mine = [it for it in events if it.seat == seat]
        lines += [line_of(it) for it in mine if it.what == "kept"]
        lines += [line_of(it) for it in mine if it.what in ("stalled", "stopped")]
    for number, (head, lists) in enumerate(play.reported_chans(left, events)):
        lines.append(f"chan {number} {head}")
        lines += [with_text(f"chan {number} reader {reader} left:", items) for reader, items in enumerate(lists)]
    ends = {it.what for it in events}
    return lines, next((it for it in ("stopped", "stalled") if it in ends), "done")


def explored(found):
    """The text and the status for the ends of all orders, or for too many orders."""
    if found is None:
        return "fault: too many orders\n", 1
    lines = []
    for end, order in found:
        lines += [" ".join(map(str, ("end", end.word, "by", *order))), *end.lines]
    words = collections.Counter(end.word for end, _ in found)
    summary = ", ".join(f"{words[word]} {word}" for word in ("done", "stalled", "stopped"))
    status = next((STATUSES[word] for word in ("stopped", "stalled") if words[word]), 0)
    return "".join(f"{it}\n" for it in [*lines, f"ends: {summary}"]), status


def line_of(event):
    """The line of a transaction that was kept, or at which its seat ended."""
    head = f"seat {event.seat} txn {event.number} {event.what}:"
    return with_text(head, play.replies_of(event.lines) if event.what == "kept" else event.cause)


def with_text(head, text):
    return f"{head} {text}" if text else head


def given():
    """As much of standard input as the program reads."""
    data = b""
    while len(data) <= reading.MOST_BYTES:
        more = os.read(0, reading.MOST_BYTES + 1 - len(data))
        if not more:
            break
        data += more
    return data


def main(words):
    if len(words) != 1 or words[0] not in WORDS:
        text, status = USAGE + "\n", 2
    else:
        try:
            text, status = answer(words[0], given())
        except OSError:
            text, status = "fault: read failed\n", 1
    try:
        data = text.encode()
        while data:
            data = data[os.write(1, data):]
    except OSError:
        return 1
    return status


if __name__ == "__main__":
    sys.exit(main(sys.argv[1:]))
