#!/usr/bin/env bash
# Proves the bench of the audit and runs it: milliseconds of the audit of 10,000, 100,000 and a million
# receipts and of the run that they are of, and the peak memory of the transactions alone, with the run and its
# report, and with the audit.
set -eu
root=$(cd "$(dirname "$0")/.." && pwd)
place=$("$root/bench/place.sh" audit txc_base txc_chan txc_txn_check txc_txn txc_table_audit)
trap 'rm -rf "$place"' EXIT
cd "$place/crates/bench_audit"
rt run -- 16 audit

python3 - <<'PYTHON'
import os, subprocess

def run(count, mode):
    """What the bench prints, as numbers by their names, and its peak memory in KiB."""
    child = subprocess.Popen(['out/bench_audit', str(count), mode], stdout=subprocess.PIPE, text=True)
    words = child.stdout.read().split()
    _, status, usage = os.wait4(child.pid, 0)
    assert os.waitstatus_to_exitcode(status) == 0, status
    return dict(zip(words[::2], words[1::2])), usage.ru_maxrss

for count in (10_000, 100_000, 1_000_000):
    _, alone = run(count, 'transactions')
    _, ran = run(count, 'run')
    best = None
    for _ in range(3):
        found, audited = run(count, 'audit')
        assert found['ranked'] == 'Some(%d)' % count and found['fit'] == 'true', found
        if best is None or int(found['audit']) < int(best['audit']):
            best = found
    took, audit = int(best['run']) - int(best['look']), int(best['audit'])
    print('%d receipts: run %d ms, audit %d ms, %.2f of the run; peak %d KiB, with the run %d, with the audit %d'
          % (count, took, audit, audit / max(took, 1), alone, ran, audited))
PYTHON
