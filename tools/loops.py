#!/usr/bin/env python3
"""loops.py [--times N] [NAME..]: runs each test of the crates of tests in tests/, or of these, N times (a thousand by
default), and reports those that fail or hang. ./test doesn't run it.

The tests are compiled without proofs and checks, optimised like proved ones, so that their threads meet often. As many
runs are side by side as there are processors. A run has 30 seconds.

Each run counts by itself. The last line is 'N passed, M failed'.
"""
import argparse
import concurrent.futures
import os
import subprocess
import sys
import tempfile
import time
from pathlib import Path

ROOT = Path(__file__).resolve().parent.parent
sys.dont_write_bytecode = True
sys.path.insert(0, str(ROOT / "bench"))
import compiled
import unproved
import unproved_tests

SECONDS = 30


def tests_of(program):
    """The names of the tests that a program has."""
    listed = subprocess.run([program, "--list"], stdout=subprocess.PIPE, text=True, check=True).stdout
    return [line.partition(": ")[0] for line in listed.splitlines() if line.endswith(": test")]


def passes(program, test):
    """Whether one run of a test passes in its time."""
    try:
        how = {"stdin": subprocess.DEVNULL, "stdout": subprocess.DEVNULL, "stderr": subprocess.DEVNULL}
        return subprocess.run([program, test], timeout=SECONDS, check=False, **how).returncode == 0
    except subprocess.TimeoutExpired:
        return False


def run(name, times):
    """How many runs of the tests in tests/NAME pass, and how many fail."""
    begun = time.monotonic()
    with tempfile.TemporaryDirectory(prefix="loops-") as place:
        program = Path(place) / name
        compiled.compile_tests(name, program)
        tests = tests_of(program)
        with concurrent.futures.ThreadPoolExecutor(len(os.sched_getaffinity(0))) as pool:
            counts = {test: sum(pool.map(lambda _: passes(program, test), range(times))) for test in tests}
    for test, count in counts.items():
        if count < times:
            print(f"{name}: {test}: {times - count} of {times} runs failed")
    passed = sum(counts.values())
    print(f"{name}: {len(tests)} tests, {passed} runs passed, {time.monotonic() - begun:.0f} s", flush=True)
    return passed, len(tests) * times - passed


def main():
    every = unproved_tests.uses()
    parser = argparse.ArgumentParser(description=__doc__, formatter_class=argparse.RawDescriptionHelpFormatter)
    parser.add_argument("--times", type=int, default=1000)
    parser.add_argument("names", nargs="*", metavar="NAME", help=", ".join(every))
    asked = parser.parse_args()
    if not {*asked.names} <= {*every} or asked.times < 1:
        parser.error(f"give names of {', '.join(every)}, and a number of times")
    unproved.end_at_signals()
    try:
        passed, failed = map(sum, zip(*(run(name, asked.times) for name in asked.names or every)))
    except unproved.Fault as fault:
        print(f"loops.py: {fault}")
        passed, failed = 0, 1
    print(f"{passed} passed, {failed} failed")
    return 1 if failed or not passed else 0


if __name__ == "__main__":
    sys.exit(main())
