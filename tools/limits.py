#!/usr/bin/env python3
"""Runs scripts that reach the limits, by `chanrun run`, with a thread for each seat.

- all_channels: 8 channels, two of them with 64 readers and three with the greatest bound, and 16 seats: one writes to
  a channel and one reads it, 64 operations a transaction; the script is as long as a script may be, to the byte.
- full_bound: a queue is filled up to the bound of 65,535, which is then seen to be reached.
- deep: 16 seats, each with a transaction that names 4 channels and nests 8 alternatives in one another.

What each has to print is made here from docs/SCRIPTS.md alone, and is the same for each order of the threads, but for
the order of two items in `deep`. The last line is 'N passed, M failed'.
"""

import subprocess
import sys
from pathlib import Path

ROOT = Path(__file__).resolve().parent.parent
LONGEST = 1_048_576
GREATEST_BOUND = 65_535
OPERATIONS = 64
READERS = 64
SEATS = 16
SECONDS = 120


def script(channels, seats, length=0):
    """The text of a script, with spaces at its end up to this length."""
    text = '{"version":1,"channels":[%s],"seats":[%s]}' % (",".join(channels), ",".join(seats))
    assert len(text) <= LONGEST, len(text)
    return text.ljust(length)


def seat(transactions):
    """A seat whose transactions are given as lists of the texts of their steps."""
    return "[%s]" % ",".join("[%s]" % ",".join(steps) for steps in transactions)


def kept(number, transactions):
    """The lines of a seat that finished, whose transactions are given by their replies."""
    return [f"seat {number} txn {at} kept: " + "; ".join(replies) for at, replies in enumerate(transactions)]


def left(channel, reader, items):
    return f"chan {channel} reader {reader} left:" + "".join(" " + item for item in items)


def in_parts(things):
    """In lists of as many as a transaction has operations."""
    return [things[at:at + OPERATIONS] for at in range(0, len(things), OPERATIONS)]


def all_channels():
    bound = f',"bound":{GREATEST_BOUND}'
    readers = f',"readers":{READERS}'
    kinds = [("TQueue", ""), ("TBQueue", bound), ("TChan", readers), ("TMQueue", ""), ("TBMQueue", bound),
             ("TMChan", readers), ("TQueue", ""), ("TBQueue", bound)]
    count = 70 * OPERATIONS
    seats, seat_lines, channel_lines = [], [], []
    for number, (kind, keys) in enumerate(kinds):
        writer, is_broadcast = 2 * number, keys == readers
        reader = READERS - 1 if is_broadcast else 0
        items = [f"w{at}@{writer}={at % 8}" for at in range(count)]
        read = f'["read",{number},{reader}]' if is_broadcast else f'["read",{number}]'
        seats.append(seat(in_parts([f'["write",{number},{at % 8}]' for at in range(count)])))
        seats.append(seat(in_parts([read] * count)))
        seat_lines += kept(writer, in_parts(["done"] * count))
        seat_lines += kept(writer + 1, in_parts([f"got {item}" for item in items]))
        channel_lines.append(f"chan {number} {kind} open put {count} took {count} other 0")
        channel_lines += [left(number, other, items) for other in range(reader)]
        channel_lines.append(left(number, reader, []))
    channels = ['{"kind":"%s"%s}' % pair for pair in kinds]
    return script(channels, seats, LONGEST), [seat_lines + channel_lines + ["end done"]]


def full_bound():
    count, more = GREATEST_BOUND, 1_000
    items = [f"w{at}@0=7" for at in range(count)]
    channels = ['{"kind":"TBMQueue","bound":%d}' % GREATEST_BOUND, '{"kind":"TQueue"}']
    writes = in_parts(['["write",0,7]'] * count)
    first = writes + [['["write",1,1]']]
    second = [['["read",1]'], ['["is-full",0]', '["try-write",0,8]'], *([['["read",0]']] * more), ['["is-full",0]']]
    answers = [["got w0@0=1"], ["true", "full"], *([f"got {item}"] for item in items[:more]), ["false"]]
    lines = kept(0, [["done"] * len(steps) for steps in first]) + kept(1, answers)
    lines += [f"chan 0 TBMQueue open put {count} took {more} other 0", left(0, 0, items[more:])]
    lines += ["chan 1 TQueue open put 1 took 1 other 0", left(1, 0, []), "end done"]
    return script(channels, [seat(first), seat(second)]), [lines]


def deep():
    seats, lines = [], []
    for number in range(SEATS):
        steps = f'["write",{number % 8},{number}]'
        for _ in range(8):
            steps = f'["or",[["retry"]],[{steps}]]'
        asked = [f'["is-closed",{(number + more) % 8}]' for more in (1, 2, 3)]
        seats.append(seat([asked + [steps]]))
        lines += kept(number, [["false"] * 3 + ["done"]])
    orders = []
    for channel in range(8):
        begun = f"chan {channel} TMQueue open put 2 took 0 other 0"
        one, two = channel, channel + 8
        orders.append([[begun, left(channel, 0, [f"w0@{a}={a}", f"w1@{b}={b}"])] for a, b in ((one, two), (two, one))])
    return script(['{"kind":"TMQueue"}'] * 8, seats), [lines, *orders, ["end done"]]


def is_printed(text, parts):
    """Whether the parts stand there in order: each the lines, or one of two forms of them."""
    lines = text.split("\n")
    if lines.pop() != "":
        return False
    at = 0
    for part in parts:
        forms = part if isinstance(part[0], list) else [part]
        length = len(forms[0])
        if lines[at:at + length] not in forms:
            return False
        at += length
    return at == len(lines)


def main():
    passed = failed = 0
    for make in (all_channels, full_bound, deep):
        text, parts = make()
        run = subprocess.run([ROOT / "chanrun", "run"], input=text.encode(), stdout=subprocess.PIPE,
                             timeout=SECONDS, check=False)
        if run.returncode == 0 and is_printed(run.stdout.decode(), parts):
            passed += 1
        else:
            failed += 1
            print(f"{make.__name__}: status {run.returncode}, and another report: {run.stdout[:200]!r} ..")
    print(f"{passed} passed, {failed} failed")
    return 1 if failed else 0


if __name__ == "__main__":
    sys.exit(main())
