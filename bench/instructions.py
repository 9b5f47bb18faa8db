#!/usr/bin/env python3
"""instructions.py [--jobs JOB..] [--functions] [--program FILE] [--proved]: counts the instructions of a transaction in
the jobs of bench/jobs.rattle, by `serve` and by `run`, with callgrind. It compiles the bench without proofs, or with
--proved proves it. The counts do not depend on what else the machine does. Without --jobs it counts all jobs. With
--functions it prints for each job the 30 functions that take most. --program keeps the bench as FILE, or takes FILE if
it is there.
instructions.py --check: proves the bench and compares the jobs of one thread with bench/instructions.txt, without the C
library. The last line is 'N passed, M failed'.
instructions.py --store: writes bench/instructions.txt anew, also from the proved bench.

A count is the difference of two runs, so that what happens once is left out. Callgrind runs one thread at a time, and
the order of threads can change a count: a job of several threads is counted three times. The table has the median, and
the spread from the least to the greatest in percent of it. The columns of crates divide the count of a service. Inlined
code counts as its caller's.
"""
import argparse
import shutil
import subprocess
import sys
import tempfile
from collections import Counter, namedtuple
from pathlib import Path

sys.dont_write_bytecode = True
import compiled

# How many workers each job has: those of one worker are counted once.
WORKERS = {"solo": 1, "moves": 1, "merges": 1, "two": 2, "four": 4, "pipeline": 8, "bounded": 8, "ring": 4,
           "broadcast": 4, "choice": 3, "pingpong": 2, "pingpongs": 8}
ALONE = [job for job, workers in WORKERS.items() if workers == 1]
TURNS = 3
# By a service and by a run, as the bench names them.
MODES = ("serve", "run")
# Transactions of the two runs. Each job's workers share them without a rest. The second count is four times the first,
# so that vectors which double grow as often in each job.
FEW, MANY = 2_400, 9_600
# A run of the bench takes one or two seconds under callgrind.
SECONDS = 300
# How many functions are printed, and what they take at least.
FUNCTIONS, SMALLEST = 30, 0.05
# The columns of the table, and the crates in each.
CRATES = {"table": ("txc_table",), "lines": ("txc_table_lines", "txc_table_line", "txc_table_lock"),
          "seat": ("txc_table_seat",), "txn": ("txc_txn",), "chan": ("txc_chan",),
          "queue": ("txc_queue", "txc_cast", "txc_queue_fanout"), "wait": ("txc_table_wait", "txc_table_interests"),
          "work": ("yalwythen_work", "txc_base_threads")}
COLUMN = {crate: column for column, crates in CRATES.items() for crate in crates}
REST = "rest"
STORED = Path(__file__).with_suffix(".txt")
PERCENT = 2
HEAD = f"""# Instructions of a transaction, and how many of them write memory, in the jobs of one thread of the proved
# bench. Those of the C library are left out. `./test` compares them within {PERCENT} %. Written by
# bench/instructions.py --store.
"""

# What a function takes, and how much of that writes memory.
Cost = namedtuple("Cost", ("instructions", "writes"))


def costs(lines):
    """The instructions of each function, and those that write memory, in callgrind's output."""
    instructions, writes, function, is_call = Counter(), Counter(), None, False
    for line in lines:
        if line.startswith("fn="):
            # The instances of a generic function count as one.
            function = line[3:].rstrip().split("::<")[0]
        elif line.startswith("calls="):
            is_call = True
        elif line[:1].isdigit():
            # The line after a call has the costs of the called function. Its position, Ir, Dr, Dw; zeros at the end are
            # left out.
            _, taken, _, written, *_ = [*map(int, line.split()), 0, 0, 0]
            if not is_call:
                instructions[function] += taken
                writes[function] += written
            is_call = False
    return instructions, writes


def callgrind(program, mode, job, count):
    with tempfile.NamedTemporaryFile(prefix="instructions-") as file:
        words = ["valgrind", "--tool=callgrind", "--cache-sim=yes", "--fair-sched=try", "--separate-recs=1",
                 "--compress-strings=no", "--compress-pos=no", f"--callgrind-out-file={file.name}"]
        compiled.run(*words, program, mode, job, count, timeout=SECONDS)
        with open(file.name, encoding="utf-8") as lines:
            return costs(lines)


def counted(program, mode, job):
    """What each function takes of a transaction, by its name."""
    few, many = (callgrind(program, mode, job, count) for count in (FEW, MANY))
    found = {}
    for function in many[0]:
        found[function] = Cost(*((more[function] - less[function]) / (MANY - FEW) for less, more in zip(few, many)))
    if total(found.values()).instructions < 1:
        raise compiled.unproved.Fault(f"{program} does not run {job} by {mode}")
    return found


def total(costs_of_functions):
    return Cost(*(sum(it) for it in zip(*costs_of_functions)))


class Count:
    """A job by a service or by a run: the median of its turns, and their spread."""

    def __init__(self, program, mode, job):
        turns = [counted(program, mode, job) for _ in range(1 if job in ALONE else TURNS)]
        turns.sort(key=lambda it: total(it.values()))
        self.functions = turns[len(turns) // 2]
        totals = [total(it.values()) for it in turns]
        self.total = totals[len(totals) // 2]
        self.spread = (totals[-1].instructions - totals[0].instructions) / self.total.instructions

    def own(self):
        """What the code in Rattle takes: its functions have paths. The C library's depend on the machine."""
        return total(cost for function, cost in self.functions.items() if "::" in function)

    def columns(self):
        found = Counter()
        for function, cost in self.functions.items():
            found[COLUMN.get(function.split("::")[0], REST)] += cost.instructions
        return [found[column] for column in (*CRATES, REST)]

    def print_functions(self, title):
        print(f"\n| {title} | Instructions | Writes |\n|---|--:|--:|")
        for function, cost in sorted(self.functions.items(), key=lambda it: -it[1].instructions)[:FUNCTIONS]:
            if cost.instructions > SMALLEST:
                print(f"| `{function}` | {cost.instructions:.1f} | {cost.writes:.1f} |")


def print_table(program, jobs, has_functions):
    heads = ["Job", *(it for mode in MODES for it in (f"`{mode}`", "writes")), *CRATES, REST, "spread, %"]
    print(f"| {' | '.join(heads)} |\n|---{'|--:' * (len(heads) - 1)}|")
    counts = {}
    for job in jobs:
        both = counts[job] = [Count(program, mode, job) for mode in MODES]
        figures = [it for count in both for it in count.total] + both[0].columns()
        spreads = ", ".join(f"{100 * it.spread:.1f}" for it in both)
        print(f"| {job} | {' | '.join(f'{it:.0f}' for it in figures)} | {spreads} |", flush=True)
    for job in jobs if has_functions else ():
        for mode, count in zip(MODES, counts[job]):
            count.print_functions(f"{job} by `{mode}`")


def store(program):
    lines = [(job, mode, *Count(program, mode, job).own()) for job in ALONE for mode in MODES]
    STORED.write_text(HEAD + "".join(f"{job} {mode} {taken:.0f} {writes:.0f}\n" for job, mode, taken, writes in lines))


def stored():
    lines = (line.split() for line in STORED.read_text(encoding="utf-8").splitlines() if not line.startswith("#"))
    return {(job, mode): Cost(int(taken), int(writes)) for job, mode, taken, writes in lines}


def check(program):
    """How many counts are as they were stored, and how many are not."""
    passed = 0
    expected = stored()
    for (job, mode), before in expected.items():
        now = Count(program, mode, job).own()
        is_near = all(abs(new - old) <= old * PERCENT / 100 for new, old in zip(now, before))
        passed += is_near
        said = "" if is_near else f": over {PERCENT} % apart; if that is right, run bench/instructions.py --store"
        print(f"{job} by {mode}: {now.instructions:.0f} instructions, {now.writes:.0f} writes; stored "
              f"{before.instructions} and {before.writes}{said}", flush=True)
    return passed, len(expected) - passed


def work(asked, program):
    """What is asked for, by the compiled bench."""
    if asked.store:
        store(program)
    elif asked.check:
        passed, failed = check(program)
        print(f"{passed} passed, {failed} failed")
        return 1 if failed or not passed else 0
    else:
        print_table(program, asked.jobs or WORKERS, asked.functions)
    return 0


def words():
    parser = argparse.ArgumentParser(description=__doc__, formatter_class=argparse.RawDescriptionHelpFormatter)
    parser.add_argument("--jobs", nargs="+", choices=WORKERS, metavar="JOB", help=", ".join(WORKERS))
    parser.add_argument("--functions", action="store_true")
    parser.add_argument("--program", metavar="FILE", type=Path)
    parser.add_argument("--proved", action="store_true")
    either = parser.add_mutually_exclusive_group()
    either.add_argument("--check", action="store_true")
    either.add_argument("--store", action="store_true")
    return parser.parse_args()


def main():
    asked = words()
    compiled.unproved.end_at_signals()
    if not shutil.which("valgrind"):
        if asked.check:
            print("instructions.py: valgrind not found: skipped the instructions\n0 passed, 0 failed")
            return 0
        print("instructions.py: valgrind not found: install it (apt-get install valgrind)", file=sys.stderr)
        return 1
    try:
        with tempfile.TemporaryDirectory(prefix="instructions-") as place:
            program = asked.program or Path(place, "bench_jobs")
            if not program.exists():
                is_proved = asked.proved or asked.check or asked.store
                make = compiled.prove_bench if is_proved else compiled.compile_bench
                make("jobs", program, "yalwythen", "anyhow")
            return work(asked, program)
    except (compiled.unproved.Fault, subprocess.TimeoutExpired, OSError) as fault:
        print(f"instructions.py: {fault}", file=sys.stderr)
        return 1


if __name__ == "__main__":
    sys.exit(main())
