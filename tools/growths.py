#!/usr/bin/env python3
"""Refuses growths of memory to programs of ours, by an object that is preloaded (tools/growths.c).

Each run is made again with its Nth growth refused, and again with each growth from the Nth on refused, N rising from
1 until a run meets no refusal. The program then has to print `fault: no memory` and nothing else, with status 1; with
`run` it may be `fault: no thread` too.
A test of a crate in TESTS tells of each call when it begins and whether it was answered; the call in which a growth
was refused has to tell of want of memory, and no other; the test itself compares what was lent with what it was
before, makes the call again, and compares what it answers.

A run, a service and the program end with `no thread` if any one of their threads cannot be started.

Beside that: the calls of a test in WHOLLY_REFUSED are answered as ever where each growth is refused to them, since
what they answer is found before any memory is taken; a write to a broadcast channel of 64 readers makes at most six
growths, since its items stand once and not in a list for each reader; six operations without an act are answered with
no growth left; and on a table that keeps no log thirty rounds of a write and a read make no more growths than three.

Each run counts by itself. The last line is 'N passed, M failed'.
"""

import concurrent.futures
import os
import re
import subprocess
import sys
import tempfile
from pathlib import Path

ROOT = Path(__file__).resolve().parent.parent
sys.dont_write_bytecode = True
sys.path.insert(0, str(ROOT / "bench"))
import compiled
import unproved

NO_MEMORY = (b"fault: no memory\n", 1)
NO_THREAD = (b"fault: no thread\n", 1)
SHOWN = 3

SCRIPTS = ["write_then_read", "clone_takes_the_put_back", "nested_alternatives", "refused_flush"]

# Tests that tell of their calls, by their crates.
TESTS = {
    "txc_refusal_tests": ["queue::unbounded", "queue::bounded", "cast::broadcast_list", "chan::queue",
                          "chan::bounded_queue", "chan::closable_queue", "chan::closable_bounded_queue",
                          "chan::broadcast", "chan::closable_broadcast", "plain::nested_alternatives",
                          "audit::worked_report"],
    "txc_table_refusal_tests": ["with_log::two_seats_attempt_and_leave", "with_log::last_seat_stalls",
                                "without_log::two_seats_attempt_and_leave", "session::one_worker", "workers::one_run",
                                "service::two_servers"],
}

# Tests that run three threads and print whether all were started, of the crate `yalwythen_work_tests`.
WITHOUT_A_THREAD = ["a_run_ends_without_a_thread", "a_service_ends_without_a_thread"]

# Tests whose calls are answered with each growth refused, by their crates.
WHOLLY_REFUSED = {"txc_refusal_tests": ["audit::out_of_order", "plain::retry_at_the_first_operation"]}

# What each of these tests makes before it makes an operation that has no act.
WITHOUT_MEMORY = {
    "read_of_nothing_without_memory": "made_queue",
    "flush_of_nothing_without_memory": "made_queue",
    "write_at_the_bound_without_memory": "made_bounded",
    "put_back_at_the_bound_without_memory": "made_bounded",
    "clone_of_no_reader_without_memory": "made_cast",
    "dup_at_64_readers_without_memory": "made_cast_of_64",
}


class Run:
    """One run of a program, and what the object that was preloaded tells of it."""

    def __init__(self, preloaded, words, script=None, **refusals):
        environment = dict(os.environ, LD_PRELOAD=preloaded, **{name: str(number) for name, number in refusals.items()})
        with open(script or os.devnull, "rb") as given:
            run = subprocess.run(words, stdin=given, capture_output=True, env=environment, timeout=60, check=False)
        self.printed, self.status = run.stdout, run.returncode
        found = re.search(rb"^growths (\d+) refused (\d+) in call (\d+)$", run.stderr, re.MULTILINE)
        self.growths, self.refused, self.call = map(int, found.groups()) if found else (0, 0, 0)
        self.has_counts = found is not None

    def call_lines(self):
        """The lines of a test that tell of its calls."""
        lines = self.printed.decode(errors="replace").splitlines()
        return [line for line in lines if line.startswith("call ") or line in ("answered", "no memory")]


class Counts:
    """What was right and what was wrong."""

    def __init__(self, name):
        self.name, self.passed, self.wrong = name, 0, []

    def count(self, holds, what):
        if holds:
            self.passed += 1
        else:
            self.wrong.append(what)

    def show(self, text):
        for what in self.wrong[:SHOWN]:
            print(f"wrong: {self.name}: {what}")
        if len(self.wrong) > SHOWN:
            print(f"wrong: {self.name}: {len(self.wrong)} runs in all")
        print(f"{self.name}: {text}")


def each_refused(run, check):
    """Runs with each growth refused, in both ways, until a run meets no refusal; how many growths that were."""
    most = 0
    for way in ("REFUSE", "REFUSE_FROM"):
        number = 1
        while (refused := run(**{way: number})).refused > 0:
            check(f"{way}={number}", refused)
            number += 1
        most = max(most, number - 1)
    return most


def refuse_program(preloaded, word, name):
    """Refuses the growths of the program on a script."""
    counts = Counts(f"chanrun {word} {name}")
    words = [ROOT / "crates/chanrun/out/chanrun", word]
    script = ROOT / "scripts" / f"{name}.json"
    refusals = [NO_MEMORY, NO_THREAD] if word == "run" else [NO_MEMORY]
    whole = Run(preloaded, words, script)
    counts.count(whole.growths > 0 and whole.printed != NO_MEMORY[0], "no growth was counted")

    def check(which, run):
        counts.count((run.printed, run.status) in refusals, f"{which}: status {run.status}, {run.printed}")

    most = each_refused(lambda **refusals: Run(preloaded, words, script, **refusals), check)
    counts.count(most == whole.growths, f"{most} growths were refused of {whole.growths}")
    return counts, f"{most} growths"


def with_refusal(lines, call):
    """These lines, where the call of this number is refused once."""
    wanted = []
    number = 0
    for line in lines:
        wanted.append(line)
        if line.startswith("call "):
            number += 1
            if number == call:
                wanted += ["no memory", line]
    return wanted


def refuse_test(preloaded, program, name):
    """Refuses the growths of the calls of a test, which tells of them."""
    counts = Counts(name)
    words = [program, name]
    whole = Run(preloaded, words, CALLS=1)
    lines = whole.call_lines()
    counts.count(whole.status == 0 and lines and "no memory" not in lines, f"status {whole.status}, {whole.printed}")

    def check(which, run):
        want = with_refusal(lines, run.call)
        got = run.call_lines()
        same = next((place for place, (one, other) in enumerate(zip(want, got)) if one != other), len(want))
        counts.count(run.status == 0 and got == want,
                     f"{which}: in call {run.call}, status {run.status}, came {got[max(same - 1, 0):same + 2]}")

    most = each_refused(lambda **refusals: Run(preloaded, words, CALLS=1, **refusals), check)
    counts.count(most == whole.growths, f"{most} growths were refused of {whole.growths}")
    return counts, f"{most} growths in {lines.count('answered')} calls"


def wholly_refused(preloaded, program, name):
    """Makes the calls of a test with each growth refused, which answers them as it does with memory."""
    counts = Counts(name)
    words = [program, name]
    whole = Run(preloaded, words, CALLS=1)
    refused = Run(preloaded, words, CALLS=1, REFUSE_FROM=1)
    for run in (whole, refused):
        counts.count(run.has_counts and run.status == 0 and run.call_lines()[1:] == ["answered"],
                     f"status {run.status}, {run.printed}")
    return counts, "answered"


def write_to_readers(preloaded, program):
    """Counts the growths of a write to a broadcast channel of 64 readers."""
    counts = Counts("write_to_64_readers")
    before = Run(preloaded, [program, "memory::made_cast_of_64"])
    after = Run(preloaded, [program, "memory::write_to_64_readers"])
    took = after.growths - before.growths
    counts.count(before.growths > 0 and 1 <= took <= 6 and after.status == 0, "not one to six growths")
    return counts, f"the write makes {took} growths"


def without_memory(preloaded, program, name, made):
    """Makes an operation without an act where no growth is left after those that making the channel takes."""
    counts = Counts(name)
    making = Run(preloaded, [program, f"memory::{made}"])
    run = Run(preloaded, [program, f"memory::{name}"], REFUSE_FROM=making.growths + 1)
    counts.count(making.has_counts and run.has_counts and run.status == 0, f"status {run.status}, {run.printed}")
    return counts, "answered"


def rounds_in_the_same_memory(preloaded, program):
    """Counts the growths of the calls of a seat that does the same again and again, on a table that keeps no log."""
    counts = Counts("thirty_rounds")
    names = ("without_log::three_rounds", "without_log::thirty_rounds")
    few, many = (Run(preloaded, [program, name], CALLS=1) for name in names)
    counts.count(few.has_counts and few.status == 0 and many.status == 0
                 and len(many.call_lines()) > len(few.call_lines()),
                 f"status {few.status} and {many.status}")
    counts.count(0 < many.growths == few.growths, f"{many.growths} growths, and {few.growths} in three rounds")
    return counts, f"{many.growths} growths"


def without_a_thread(preloaded, words, threads, wanted, script=None):
    """Runs a program with each of its threads refused in turn, and with none refused."""
    counts = Counts(f"{Path(words[0]).name} {words[1]} without a thread")
    for number in range(1, threads + 1):
        run = Run(preloaded, words, script, REFUSE_THREAD=number)
        counts.count((run.printed, run.status) == wanted, f"thread {number}: status {run.status}, {run.printed}")
    whole = Run(preloaded, words, script, REFUSE_THREAD=threads + 1)
    counts.count(whole.printed != wanted[0], f"no thread was refused: status {whole.status}, {whole.printed}")
    return counts, f"{threads} threads"


def program_of(crate, place):
    """The program of the tests of a crate in tests/, without the address sanitizer, which would take the place of what
    is preloaded."""
    program = Path(place) / crate
    try:
        compiled.compile_tests(crate, program)
    except unproved.Fault as fault:
        sys.exit(f"growths.py: {fault}\n0 passed, 1 failed")
    return program


def build(place):
    """The object to preload, and the programs of the tests that it is to be preloaded into, by their crates."""
    preloaded = os.path.join(place, "growths.so")
    subprocess.run(["cc", "-shared", "-fPIC", "-o", preloaded, ROOT / "tools/growths.c", "-ldl"], check=True)
    # Without words the program says how it is used.
    built = subprocess.run([ROOT / "chanrun"], stdin=subprocess.DEVNULL, stdout=subprocess.DEVNULL, check=False)
    if built.returncode != 2:
        sys.exit("there is no program to run\n0 passed, 1 failed")
    crates = [*TESTS, "yalwythen_work_tests"]
    with concurrent.futures.ThreadPoolExecutor(len(crates)) as pool:
        return preloaded, dict(zip(crates, pool.map(lambda crate: program_of(crate, place), crates)))


def main():
    processors = len(os.sched_getaffinity(0))
    with tempfile.TemporaryDirectory() as place, concurrent.futures.ThreadPoolExecutor(processors) as pool:
        preloaded, programs = build(place)
        refusal_tests = programs["txc_refusal_tests"]
        parts = [pool.submit(write_to_readers, preloaded, refusal_tests)]
        parts += [pool.submit(without_memory, preloaded, refusal_tests, *pair) for pair in WITHOUT_MEMORY.items()]
        parts.append(pool.submit(rounds_in_the_same_memory, preloaded, programs["txc_table_refusal_tests"]))
        parts += [pool.submit(refuse_test, preloaded, programs[crate], name)
                  for crate, names in TESTS.items() for name in names]
        parts += [pool.submit(wholly_refused, preloaded, programs[crate], name)
                  for crate, names in WHOLLY_REFUSED.items() for name in names]
        parts += [pool.submit(refuse_program, preloaded, word, name)
                  for word in ("check", "replay") for name in SCRIPTS]
        parts += [pool.submit(refuse_program, preloaded, word, SCRIPTS[0]) for word in ("explore", "run")]
        chanrun = [ROOT / "crates/chanrun/out/chanrun", "run"]
        parts.append(pool.submit(without_a_thread, preloaded, chanrun, 3, NO_THREAD, ROOT / "examples/pipeline.json"))
        parts += [pool.submit(without_a_thread, preloaded, [programs["yalwythen_work_tests"], f"threads::{name}"], 3,
                              (b"no thread\n\ntest result: ok\n", 0)) for name in WITHOUT_A_THREAD]
        found = [part.result() for part in parts]
    for counts, text in found:
        counts.show(text)
    failed = sum(len(counts.wrong) for counts, _ in found)
    print(f"{sum(counts.passed for counts, _ in found)} passed, {failed} failed")
    return 1 if failed else 0


if __name__ == "__main__":
    sys.exit(main())
