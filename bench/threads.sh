#!/usr/bin/env bash
# What a script costs with a thread for each seat, by `chanrun run`: a queue that four seats write and four read, the
# same with a bound of 1,024, a broadcast channel that one seat writes and four read, one seat that writes and reads a
# queue, two that do so on a queue each, and four that move eight items between two queues. Beside it `chanrun replay`
# in one thread, and a mutex around a deque in Rust, which writes a broadcast item once for each reader. Prints
# nanoseconds of a transaction, what reading the script takes (`chanrun check`) taken off, and the printing of the
# report counted.
set -eu
cd "$(dirname "${BASH_SOURCE[0]}")/.." || exit 1

./chanrun run <examples/hello.json >/dev/null
place=$(mktemp -d)
trap 'rm -rf "$place"' EXIT
rustc -O --edition 2021 -o "$place/threads" bench/threads.rs
if command -v ghc >/dev/null; then
  ghc -v0 -O2 -threaded -with-rtsopts=-N -outputdir "$place" -o "$place/stm" bench/stm.hs
fi

python3 - "$place" <<'PYTHON'
import os, subprocess, sys, time

place = sys.argv[1]
script = place + '/script.json'
TIMES = 7

def seat(step, count):
    return '[' + ','.join(['[%s]' % step] * count) + ']'

def text(channel, seats):
    return '{"version":1,"channels":[%s],"seats":[%s]}' % (channel, ','.join(seats))

def handed_on(channel, items):
    return text(channel, [seat('["write",0,7]', items // 4)] * 4 + [seat('["read",0]', items // 4)] * 4), 2 * items

def broadcast(items):
    readers = [seat('["read",0,%d]' % reader, items) for reader in range(4)]
    return text('{"kind":"TChan","readers":4}', [seat('["write",0,7]', items)] + readers), 5 * items

def apart(seats, items):
    pairs = ['[%s]' % ','.join(['[["write",%d,7]],[["read",%d]]' % (chan, chan)] * items) for chan in range(seats)]
    return text(','.join(['{"kind":"TQueue"}'] * seats), pairs), 2 * seats * items

def ring(moves):
    there, back = (seat('["read",%d],["write",%d,"last"]' % pair, moves // 4) for pair in ((0, 1), (1, 0)))
    first = '[[%s],%s' % (','.join(['["write",0,7]'] * 8), there[1:])
    return text('{"kind":"TQueue"},{"kind":"TQueue"}', [first, back, there, back]), moves

def seconds(word):
    best = None
    for _ in range(TIMES):
        with open(script) as source:
            began = time.perf_counter()
            subprocess.run(['crates/chanrun/out/chanrun', word], stdin=source, stdout=subprocess.DEVNULL, check=True)
            took = time.perf_counter() - began
        best = min(best or took, took)
    return best

def by(program, job, items):
    words = [place + '/' + program, job, str(items)]
    return min(int(subprocess.run(words, capture_output=True, check=True).stdout) for _ in range(TIMES))

NAMES = {'threads': 'a mutex', 'stm': "GHC's stm"}
JOBS = [('pipeline', 24_000, lambda n: handed_on('{"kind":"TQueue"}', n)),
        ('bounded', 24_000, lambda n: handed_on('{"kind":"TBQueue","bound":1024}', n)),
        ('broadcast', 9_000, broadcast),
        ('one', 15_000, lambda n: apart(1, n)),
        ('two', 15_000, lambda n: apart(2, n)),
        ('ring', 24_000, ring)]
for job, items, make in JOBS:
    written, transactions = make(items)
    assert len(written) <= 1048576, len(written)
    with open(script, 'w') as out:
        out.write(written)
    reading = seconds('check')
    run, replay = (1e9 * (seconds(word) - reading) / transactions for word in ('run', 'replay'))
    line = '%s: run %.0f ns, replay %.0f ns' % (job, run, replay)
    for program in ('threads', 'stm'):
        if os.path.exists(place + '/' + program):
            other = by(program, job, items)
            line += '; by %s %d ns, so that run is %.1f of it' % (NAMES[program], other, run / other)
    print(line)
PYTHON
