#!/usr/bin/env python3
"""tested_edits.py [--times N] [CRATE..]: tries the mutants of all crates or of these that name a test, and reports
those that the test does not see each time. ./test doesn't run it.

No contract can express what the mutants in crates/CRATE/tested/ change, such as a notification that is never sent.
Other mutants name a test if tools/edit_reasons.py cannot say that a contract rejects them. A line `test: NAME PATH`
of a mutant names the test that sees it: the test PATH of tests/NAME, such as `times::a_notified_seat_returns`. With
`test: NAME PATH REFUSE_THREAD=2`, tools/growths.c makes the start of the second thread fail. The test is compiled over
the mutant without proofs, and run N times, ten by default. The mutant is seen if each run fails or hangs. A run has 20
seconds.

Each mutant counts by itself. The last line is 'N passed, M failed'.
"""
import argparse
import concurrent.futures
import os
import re
import shutil
import subprocess
import sys
import time
from pathlib import Path

sys.dont_write_bytecode = True
import edit_files
import unproved
import unproved_tests

sys.path.insert(0, str(edit_files.ROOT / "bench"))
import compiled

CRATES = edit_files.ROOT / "crates"
SECONDS = 20
NAMED = re.compile(r"^test: (\w+) ([\w:]+)(?: (REFUSE_THREAD)=(\d+))?$", re.MULTILINE)


def test_of(edit):
    """The crate of tests that a mutant names, the path of the test there, and the variables that it is run with."""
    found = NAMED.search(edit.read_text(encoding="utf-8"))
    if not found:
        raise edit_files.Invalid("no line `test: NAME PATH`")
    name, path, variable, value = found.groups()
    return name, path, {variable: value} if variable else {}


def compile_over(edit, name, program):
    """Compiles the tests in tests/NAME over the crate that a mutant changes."""
    crate, rtlib = edit.parent.parent.name, unproved.toolchain()
    place = unproved_tests.make_crate(name, unproved_tests.uses()[name])
    try:
        folder = place / "crates" / crate
        for path, text in edit_files.texts_of(folder, [edit]).items():
            # The file is a copy. A new one takes its place, in case it is a link.
            (folder / path).unlink()
            (folder / path).write_text(text, encoding="utf-8")
        tests = unproved.crate_named(rtlib, str(place / "crates"), name)
        compiled.make_module(rtlib, tests, place, tests=True)
        compiled.link(rtlib.KIT, place, place / "crates", program)
    finally:
        shutil.rmtree(place, ignore_errors=True)


def fails(program, test, variables):
    """Whether one run of a test fails or hangs."""
    if variables:
        variables = {**variables, "LD_PRELOAD": f"{program.parent}/growths.so"}
    how = {"stdin": subprocess.DEVNULL, "stdout": subprocess.PIPE, "stderr": subprocess.STDOUT, "text": True,
           "env": {**os.environ, **variables}}
    try:
        ran = subprocess.run([program, test], timeout=SECONDS, check=False, **how)
    except subprocess.TimeoutExpired:
        return True
    if "no test" in ran.stdout:
        raise unproved.Fault(f"there is no test {test}")
    return ran.returncode != 0


def is_seen(edit, place, times):
    """Whether the test that a mutant names fails in each of this number of runs."""
    name = f"{edit.parent.parent.name}/{edit.stem}"
    begun = time.monotonic()
    try:
        tests, test, variables = test_of(edit)
        program = Path(place) / f"{edit.parent.parent.name}.{edit.stem}"
        compile_over(edit, tests, program)
        failed = sum(fails(program, test, variables) for _ in range(times))
        program.unlink()
    except (edit_files.Invalid, unproved.Fault) as why:
        print(f"{name}: not tried: {why}", flush=True)
        return False
    print(f"{name}: {failed} of {times} runs of {tests} {test} failed, {time.monotonic() - begun:.0f} s", flush=True)
    return failed == times


def main():
    parser = argparse.ArgumentParser(description=__doc__, formatter_class=argparse.RawDescriptionHelpFormatter)
    parser.add_argument("--times", type=int, default=10)
    parser.add_argument("crates", nargs="*", metavar="CRATE")
    asked = parser.parse_args()
    unproved.end_at_signals()
    names = asked.crates or sorted(it.name for it in CRATES.iterdir())
    every = [it for name in names for it in [*edit_files.tested_in(CRATES / name), *edit_files.edits_of(CRATES / name)]]
    edits = [it for it in every if NAMED.search(it.read_text(encoding="utf-8"))]
    place = subprocess.run(["mktemp", "-d"], stdout=subprocess.PIPE, text=True, check=True).stdout.strip()
    try:
        preloaded = ["cc", "-shared", "-fPIC", "-o", f"{place}/growths.so", edit_files.ROOT / "tools/growths.c", "-ldl"]
        subprocess.run(preloaded, check=True)
        with concurrent.futures.ThreadPoolExecutor(len(os.sched_getaffinity(0))) as pool:
            seen = sum(pool.map(lambda edit: is_seen(edit, place, asked.times), edits))
    finally:
        shutil.rmtree(place, ignore_errors=True)
    print(f"{seen} passed, {len(edits) - seen} failed")
    return 1 if seen < len(edits) or not edits else 0


if __name__ == "__main__":
    sys.exit(main())
