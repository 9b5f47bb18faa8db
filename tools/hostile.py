#!/usr/bin/env python3
"""Good scripts that are broken at one place or at two, from a fixed seed: what `chanrun check` prints for each, with
its status, is compared with a second reading, tools/reading.py. Of two faults the first has to be the answer.
`tools/hostile.py COUNT SEED` tries so many, from another seed. Each script counts by itself. The last line is
'N passed, M failed'. tools/model.py compares the reports of valid scripts.
"""

import collections
import concurrent.futures
import os
import random
import re
import subprocess
import sys

import reading

ROOT = os.path.dirname(os.path.dirname(os.path.abspath(__file__)))
PROGRAM = os.path.join(ROOT, "crates/chanrun/out/chanrun")
SHOWN = 20
# A tree that is broken at two places can be 400 lists deep, which takes more calls than Python allows at first.
sys.setrecursionlimit(10_000)

NUMBERS = ["0", "1", "2", "7", "8", "9", "15", "16", "17", "63", "64", "65", "255", "65535", "65536", "4294967296",
           "18446744073709551615", "18446744073709551616", "1e0", "1.0", "0.5", "-0", "-0.0", "-1", "-65536", "1E2",
           "1e308", "1e309", "-1e309", "1.7976931348623157e308", "1.7976931348623158e308", "1.7976931348623159e308",
           "-1.797693134862316e308", "1e-400", "0e999", "9" * 308, "9" * 310, "-" + "9" * 400, "01", "-01", "+1",
           ".5", "1.", "1e", "0x10", "NaN", "Infinity", "-Infinity", "-", "1_0"]
TEXTS = ["", "last", "Last", "or", "retry", "write", "WRITE", "write ", "kind", "TQueue", "TMChan", "tqueue", "bound",
         "readers", "version", "seats", "length", "take", "\u00e4\u4e2d\U0001f600", "\u0000", "a" * 300]
WRITTEN = ['"\\u006f\\u0072"', '"\\ud83d\\ude00"', '"\\ud800"', '"\\udc00"', '"\\ud800\\ud800"', '"\\ud800a"',
           '"\\u00"', '"\\x"', '"a\nb"', '"a\tb"', '"\x7f"', "'or'", '"or', "or", "true", "false", "null", "True",
           "[]", "{}", "[[]]", '[""]', '[{}]', '{"or":[]}', '{"":0}', '""', '["or"]', '[["retry"]]', '[[["retry"]]]',
           '["retry",0]', "//", "/**/"]
BYTES = [0, 1, 9, 10, 13, 31, 32, 34, 44, 45, 46, 48, 57, 58, 91, 92, 93, 101, 123, 125, 127, 128, 191, 192, 193, 224,
         237, 239, 240, 244, 245, 255]
LUMPS = [b"\xef\xbb\xbf", b"\xc0\x80", b"\xed\xa0\x80", b"\xf4\x90\x80\x80", b"\xc3\xa4", b"\xe4\xb8\xad",
         b"\xff\xfe", b" \t\r\n", b"\x0b", b"\x0c", b"\xc2\xa0", b",", b"[", b"]", b"{", b"}", b":", b"\"", b"0",
         b"[]", b"null", b"\\u0000"]


class Raw(str):
    """A part of a script as it is written."""


class Members(list):
    """An object: a list of keys with what stands there. A key may stand twice."""


def good_channel(rng):
    kind = rng.choice(reading.KINDS)
    members = Members([("kind", kind)])
    if kind in reading.BOUNDED:
        members.append(("bound", rng.choice([0, 1, 2, 65_535])))
    elif kind in reading.BROADCAST and rng.random() < 0.5:
        members.append(("readers", rng.choice([0, 1, 2, 64])))
    rng.shuffle(members)
    return kind, members


def good_operation(rng, kinds, chans):
    """An operation that the kind of one of these channels has."""
    chan = rng.choice(chans)
    name = rng.choice([name for name in reading.FORMS if kinds[chan] in reading.HAVE.get(name, reading.KINDS)])
    readers = [0, 1, 65_535] if kinds[chan] in reading.BROADCAST else [0]
    bodies = [0, 7, 2**64 - 1, "last"]
    form = rng.choice(reading.FORMS[name])
    return [name] + [{"c": chan, "r": rng.choice(readers), "b": rng.choice(bodies)}[operand] for operand in form]


def good_steps(rng, kinds, chans, depth=0):
    """Some steps: few enough for a transaction, even where each is an alternative of alternatives."""
    steps = []
    for _ in range(rng.choice([0, 1, 2, 3]) if depth < 3 else 1):
        luck = rng.random()
        if luck < 0.25 and depth < 4:
            branches = [good_steps(rng, kinds, chans, depth + 1) for _ in range(rng.choice([0, 1, 2]))]
            steps.append(["or"] + branches)
        elif luck < 0.3 or not chans:
            steps.append(["retry"])
        else:
            steps.append(good_operation(rng, kinds, chans))
    return steps


def good_script(rng, transactions=(0, 1, 1, 2)):
    """A valid script; each of its seats has one of these numbers of transactions."""
    channels = [good_channel(rng) for _ in range(rng.choice([0, 1, 1, 2, 3, 5, 8]))]
    kinds = [kind for kind, _ in channels]

    def transaction():
        return good_steps(rng, kinds, rng.sample(range(len(kinds)), min(4, len(kinds))))

    seats = [[transaction() for _ in range(rng.choice(transactions))] for _ in range(rng.choice([1, 1, 2, 3, 16]))]
    members = Members([("version", 1), ("channels", [channel for _, channel in channels]), ("seats", seats)])
    rng.shuffle(members)
    return members


def parts(tree):
    """A tree's places, each as the list that holds it, the index there, and what stands there."""
    found = []
    pending = [tree]
    while pending:
        part = pending.pop()
        if isinstance(part, list):
            for index, held in enumerate(part):
                value = held[1] if isinstance(part, Members) else held
                found.append((part, index, value))
                pending.append(value)
    return found


def put(holder, index, value):
    holder[index] = (holder[index][0], value) if isinstance(holder, Members) else value


def copied(tree):
    if isinstance(tree, Members):
        return Members((key, copied(value)) for key, value in tree)
    if isinstance(tree, list):
        return [copied(part) for part in tree]
    return tree


def written(rng, tree):
    """The text of a tree, with white space here and there."""
    space = rng.choice(["", "", "", " ", "\n\t\r "])
    if isinstance(tree, Raw):
        return str(tree)
    if isinstance(tree, Members):
        held = [written(rng, key) + space + ":" + written(rng, value) for key, value in tree]
        return "{" + space + ("," + space).join(held) + "}"
    if isinstance(tree, list):
        return "[" + ("," + space).join(written(rng, part) for part in tree) + space + "]"
    return quoted(tree) if isinstance(tree, str) else str(tree)


def quoted(text):
    escaped = re.sub(r'["\\]', r"\\\g<0>", text)
    return '"' + re.sub("[\x00-\x1f]", lambda match: f"\\u{ord(match[0]):04x}", escaped) + '"'


def escaped(letter):
    return f"\\u{ord(letter):04x}" if letter.isascii() else letter


def break_number(rng, holder, index, _value):
    put(holder, index, Raw(rng.choice(NUMBERS)))


def break_text(rng, holder, index, _value):
    put(holder, index, rng.choice(TEXTS + list(reading.FORMS)))


def break_kind_of_value(rng, holder, index, _value):
    put(holder, index, Raw(rng.choice(WRITTEN)))


def break_nesting(rng, holder, index, value):
    put(holder, index, rng.choice([[value], [[value]], Members([("or", value)]), Raw("[]")]))


def break_alternatives(rng, holder, index, value):
    """Puts a part so deep into alternatives."""
    for _ in range(rng.choice([1, 4, 5, 6, 7, 8, 9, 56, 57, 58, 59, 60, 61, 62, 63, 100])):
        value = ["or", [value]]
    put(holder, index, value)


def break_list(rng, holder, index, value):
    """Changes what stands in a list: an element more, again, away or elsewhere."""
    if not isinstance(value, list):
        value = [value]
    changed = copied(value)
    place = rng.randrange(len(changed) + 1)
    what = rng.choice(["again", "many", "away", "elsewhere", "other", "all away"])
    if changed and what == "again":
        changed.insert(place, rng.choice(changed))
    elif changed and what == "many":
        changed += [rng.choice(changed)] * rng.choice([5, 8, 16, 63, 64, 65])
    elif changed and what == "away":
        del changed[place - 1]
    elif changed and what == "elsewhere":
        changed.reverse()
    elif what == "other" and not isinstance(changed, Members):
        changed.insert(place, Raw(rng.choice(NUMBERS + WRITTEN)))
    else:
        changed.clear()
    put(holder, index, changed)


def break_keys(rng, tree):
    """Changes the keys of one object: one doubled, left out, renamed or added."""
    objects = [tree] + [value for _, _, value in parts(tree) if isinstance(value, Members)]
    members = rng.choice([members for members in objects if members])
    index = rng.randrange(len(members))
    key, value = members[index]
    other = rng.choice([0, 1, 64, "TQueue", "TChan", [], [[]], Raw("null"), Raw("1e309"), Raw("-0"), value])
    what = rng.choice(["double", "double", "leave out", "rename", "add", "write otherwise"])
    if what == "double":
        members.insert(rng.randrange(len(members) + 1), (key, other))
    elif what == "leave out":
        del members[index]
    elif what == "rename":
        members[index] = (rng.choice(TEXTS + [key.upper(), key + "s"]), value)
    elif what == "add":
        members.insert(index, (rng.choice(TEXTS), other))
    else:
        members[index] = (Raw('"' + "".join(map(escaped, key)) + '"'), value)


def break_bytes(rng, text):
    """Changes a byte or some, wherever they stand."""
    data = bytearray(text.encode())
    at = rng.randrange(len(data) + 1)
    what = rng.choice(["replace", "replace", "insert", "insert", "cut", "drop", "repeat", "fill"])
    if what == "replace" and at < len(data):
        data[at] = rng.choice(BYTES)
    elif what == "insert":
        data[at:at] = rng.choice(LUMPS)
    elif what == "cut":
        del data[at:]
    elif what == "drop":
        del data[at:at + 1]
    elif what == "repeat":
        data[at:at] = data[at:at + rng.choice([1, 2, 8, 30])]
    elif rng.random() < 0.2:
        data[:0] = b" " * (reading.MOST_BYTES - len(data) + rng.choice([0, 1]))
    return bytes(data)


def any_operation(rng):
    """An operation that is shaped as one, on whatever channel."""
    name = rng.choice(list(reading.FORMS))
    form = rng.choice(reading.FORMS[name])
    chan = rng.choice([0, 0, 0, 0, 0, 0, 1, 1, 2, 7, 8, 65_535])
    return [name] + [{"c": chan, "r": rng.choice([0, 0, 1]), "b": "last"}[operand] for operand in form]


def break_transaction(rng, tree):
    """Adds steps to a transaction that are shaped as steps."""
    seats = dict(tree).get("seats")
    if type(seats) is not list:
        return
    transactions = [steps for seat in seats if type(seat) is list for steps in seat if type(steps) is list]
    if not transactions:
        transactions = [[]]
        seats.append(transactions)
    steps = rng.choice(transactions)
    what = rng.choice(["one", "one", "one", "channels", "long"])
    if what == "one":
        steps.insert(rng.randrange(len(steps) + 1), any_operation(rng))
    elif what == "channels":
        steps += [["is-empty", chan] for chan in rng.sample(range(8), rng.choice([4, 5]))]
    else:
        steps.append(["or"] + [[["retry"], ["peek", 0]]] * rng.choice([60, 63, 64, 65]))


BREAKS = [break_number, break_number, break_text, break_kind_of_value, break_nesting, break_alternatives, break_list,
          break_list]


def is_fitting(way, value):
    """Whether this way to break a part shows more on this value than that it isn't what it was."""
    if way is break_number:
        return isinstance(value, int)
    if way is break_text:
        return isinstance(value, str)
    return way is not break_alternatives or (isinstance(value, list) and bool(value) and isinstance(value[0], str))


def somewhere(rng, tree):
    """A place at whatever depth."""
    holder = tree
    while True:
        index = rng.randrange(len(holder))
        value = holder[index][1] if isinstance(holder, Members) else holder[index]
        if not isinstance(value, list) or not value or rng.random() < 0.3:
            return holder, index, value
        holder = value


def break_tree(rng, tree):
    """Breaks a script at one place."""
    luck = rng.random()
    if luck < 0.2:
        break_keys(rng, tree)
    elif luck < 0.5:
        break_transaction(rng, tree)
    else:
        way = rng.choice(BREAKS)
        fitting = [place for place in parts(tree) if is_fitting(way, place[2])]
        if way is break_number and rng.random() < 0.5:
            fitting = [place for place in fitting if isinstance(place[0], Members)]
        is_any = way is break_list or not fitting or rng.random() < 0.1
        way(rng, *(somewhere(rng, tree) if is_any else rng.choice(fitting)))


def hostile(rng):
    """A good script that is broken at two places at most."""
    tree = good_script(rng)
    luck = rng.random()
    if luck < 0.05:
        return written(rng, tree).encode()
    if luck < 0.2:
        return break_bytes(rng, written(rng, tree))
    for _ in range(2 if luck < 0.5 else 1):
        break_tree(rng, tree)
    return written(rng, tree).encode()


def answer(script, word="check"):
    """What the program prints for a script, and its status."""
    run = subprocess.run([PROGRAM, word], input=script, capture_output=True, timeout=60, check=False)
    return run.stdout, run.returncode


def is_built():
    """Builds the program if it is not there or is older than its sources; whether it is there then."""
    how = {"stdin": subprocess.DEVNULL, "stdout": subprocess.DEVNULL}
    # Without words it prints its usage, with this status.
    return subprocess.run([os.path.join(ROOT, "chanrun")], check=False, **how).returncode == 2


def wanted(script):
    line = reading.line(script)
    return line.encode() + b"\n", 0 if line.startswith("ok ") else 1


def kind_of(line):
    """What a line says, without its numbers."""
    return re.sub(rb"\d+", b"N", line).decode().strip()


def all_lines():
    """What the lines can say of which each has to be among the answers."""
    of_script = ["script too large", "not JSON", "shape", "version", "too many channels", "bad seat count"]
    of_channel = ["bound too large", "too many readers"]
    of_transaction = ["unknown operation", "too deep", "too long", "no channel", "not for kind", "no reader",
                      "too many channels"]
    return (["ok N channels N seats N transactions"] + [f"fault: {text}" for text in of_script]
            + [f"fault: channel N: {text}" for text in of_channel]
            + [f"fault: seat N txn N: {text}" for text in of_transaction])


def main(count=6000, seed=17):
    if not is_built():
        print("there is no program to run\n0 passed, 1 failed")
        return 1
    rng = random.Random(seed)
    scripts = [hostile(rng) for _ in range(count)]
    with concurrent.futures.ThreadPoolExecutor(len(os.sched_getaffinity(0))) as pool:
        answers = list(pool.map(answer, scripts))
    wrong = 0
    lines = collections.Counter()
    for number, (script, got) in enumerate(zip(scripts, answers)):
        want = wanted(script)
        lines[kind_of(want[0])] += 1
        if got != want:
            wrong += 1
            if wrong <= SHOWN:
                print(f"script {number}: {got}, and not {want}: {script[:1000]!r}")
    missing = [text for text in all_lines() if not lines[text]]
    for text, times in lines.most_common():
        print(f"{times:6} {text}")
    for text in missing:
        print(f"no script is answered: {text}")
    failed = wrong + len(missing)
    print(f"{count - wrong} passed, {failed} failed")
    return 1 if failed else 0


if __name__ == "__main__":
    sys.exit(main(*map(int, sys.argv[1:3])))
