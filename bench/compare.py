#!/usr/bin/env python3
"""compare.py COMMIT [ROUNDS [JOB..]]: compares the jobs of bench/jobs.rattle at another commit with those of the files
as they are. It compiles both benches without proofs and runs them in turn, in nine rounds if none are given. On a busy
machine two programs that run in turn can be compared, and figures of two hours cannot.

It prints for each job the nanoseconds of a transaction by the clock, with `serve` and with `run`: the median of the
rounds for both commits. The last line says what else the machine did.
"""
import subprocess
import sys
import tempfile
from pathlib import Path
from statistics import median

sys.dont_write_bytecode = True
import compiled
import jobs
import unproved

ROOT = Path(__file__).resolve().parent.parent
MODES = ("serve", "run")
# What compiles the bench of a clone, in the clone's own folder and by its own tools.
COMPILE = """import sys
sys.dont_write_bytecode = True
sys.path[:0] = ["bench", "tools"]
import compiled
compiled.compile_bench("jobs", sys.argv[1], "yalwythen", "anyhow")
"""


def compile_at(commit, place, program):
    """Compiles the bench of a commit as this program, in a clone that is in a folder of this place."""
    compiled.run("git", "clone", "--quiet", "--shared", "--no-checkout", ROOT, place / "clone")
    compiled.run("git", "-C", place / "clone", "switch", "--quiet", "--detach", commit)
    compiled.run(sys.executable, "-c", COMPILE, program, cwd=place / "clone")


def turn(program, mode, job):
    """The nanoseconds of a transaction in one run of a job."""
    return int(jobs.run([program, mode, job, str(jobs.COUNTS[job])])[0])


def compare(before, now, rounds, names):
    print(f"| Job | {' | '.join(f'`{mode}` before | now' for mode in MODES)} |")
    print(f"|---{'|--:' * (2 * len(MODES))}|")
    for job in names:
        cells = [(program, mode) for mode in MODES for program in (before, now)]
        times = [[turn(*cell, job) for cell in cells] for _ in range(rounds)]
        print(f"| {job} | {' | '.join(f'{median(it):.0f}' for it in zip(*times))} |", flush=True)


def main(words):
    commit, rounds, names = words[0], words[1:2] or ["9"], words[2:] or [*jobs.COUNTS]
    if commit.startswith("-") or not rounds[0].isdigit() or not {*names} <= {*jobs.COUNTS}:
        sys.exit(__doc__)
    with tempfile.TemporaryDirectory(prefix="compare-") as folder:
        place = Path(folder)
        try:
            compile_at(commit, place, place / "before")
            compiled.compile_bench("jobs", place / "now", "yalwythen", "anyhow")
        except unproved.Fault as fault:
            sys.exit(f"compare.py: {fault}")
        load = jobs.Load()
        compare(place / "before", place / "now", int(rounds[0]), names)
        print(load.text())


if __name__ == "__main__":
    main(sys.argv[1:]) if sys.argv[1:] else sys.exit(__doc__)
