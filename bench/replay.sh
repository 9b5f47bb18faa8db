#!/usr/bin/env bash
# What whole scripts cost: of a quarter, a half and all of a mebibyte, in three shapes, replayed by the built
# program. Prints seconds, peak memory, the ratio of the seconds to the size before, and how often the
# seconds hold those of reading the JSON alone, which is what the same text costs with version 2: it is
# read whole and then refused. Without its last brace it would be gone over again, to say what is wrong.
# Where one seat has all, it also prints how often `run` takes the seconds of the replay, and its memory.
set -u
cd "$(dirname "${BASH_SOURCE[0]}")/.." || exit 1

./chanrun run <examples/hello.json >/dev/null || exit 1
script=$(mktemp) || exit 1
trap 'rm -f "$script"' EXIT

python3 - "$script" <<'PYTHON'
import itertools, os, subprocess, sys, time

script = sys.argv[1]
MEBIBYTE = 1048576

def fill(channels, seat_count, transactions, size):
    """A script of at most this size, its seats taking the transactions in turn."""
    seats = [[] for _ in range(seat_count)]
    room = size - len('{"version":1,"channels":%s,"seats":[]}' % channels) - 3 * seat_count
    for seat, transaction in transactions:
        room -= len(transaction) + 1
        if room < 0:
            break
        seats[seat].append(transaction)
    return '{"version":1,"channels":%s,"seats":[%s]}' % (channels, ','.join('[%s]' % ','.join(s) for s in seats))

def writes_and_reads(size):
    def transactions():
        for n in itertools.count():
            for seat in range(16):
                yield seat, '[["write",%d,%d]]' % (seat % 8, n)
            for seat in range(16):
                yield seat, '[["read",%d]]' % (seat % 8)
    return fill('[%s]' % ','.join(['{"kind":"TQueue"}'] * 8), 16, transactions(), size)

def alternatives(size):
    one = '[["or",[["write",0,1],["or",[["read",1]],[["retry"]]]],[["is-empty",0]]]]'
    return fill('[{"kind":"TQueue"},{"kind":"TQueue"}]', 1, ((0, one) for _ in itertools.count()), size)

def broadcast(size):
    def transactions():
        for n in itertools.count():
            yield 0, '[["write",0,%d]]' % n
            for reader in range(64):
                yield 0, '[["read",0,%d]]' % reader
    return fill('[{"kind":"TChan","readers":64}]', 1, transactions(), size)

def run(text, wanted, word='replay'):
    with open(script, 'w') as out:
        out.write(text)
    best = None
    for _ in range(9):
        with open(script) as source:
            began = time.perf_counter()
            child = subprocess.Popen(['crates/chanrun/out/chanrun', word], stdin=source, stdout=subprocess.DEVNULL)
            _, status, usage = os.wait4(child.pid, 0)
            took = time.perf_counter() - began
        assert os.waitstatus_to_exitcode(status) == wanted, status
        best = min(best or took, took)
    return best, usage.ru_maxrss

for shape in (writes_and_reads, alternatives, broadcast):
    before = None
    for size in (MEBIBYTE // 4, MEBIBYTE // 2, MEBIBYTE):
        text = shape(size)
        seconds, memory = run(text, 0)
        alone, _ = run(text.replace('"version":1', '"version":2', 1), 1)
        ratio = '' if before is None else ', %.2f of the size before' % (seconds / before)
        said = (shape.__name__, len(text), seconds, memory, seconds / alone, ratio)
        print('%s, %d bytes: %.4f s, %d KiB, %.2f of reading alone%s' % said)
        before = seconds
    if shape is not writes_and_reads:
        seconds, memory = run(text, 0, 'run')
        print('%s, by run: %.4f s, %d KiB, %.2f of the replay' % (shape.__name__, seconds, memory, seconds / before))
PYTHON
