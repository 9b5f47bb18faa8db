#!/usr/bin/env python3
"""edit_reasons.py [--jobs N] CRATE..: says for each mutant of these crates why the checker rejects it, and reports
those that may be rejected only because a proof that was written by hand does not fit. Run tools/edits.py first.

The proof of a function can be written by hand: a file Answers.antt or Proof.antt below proofs/. A wrong body that has
such a proof is rejected if the proof names a value that changed, whatever the contract says. So here the answers of
the mutant's function are left out, and the goals that the checker cannot prove alone are compared with those of the
right body without its answers. A mutant is rejected for one of these reasons:

- `tactics`: its function has no proof by hand, so a goal fails that the checker proves alone for the right body.
- `goal`: without the answers a goal fails that the checker proves alone for the right body.
- `clause`: without the answers the goal of a clause of the function is another statement than for the right body.
- `test`: none of these, and it has a line `test: NAME PATH`, so that tools/tested_edits.py can try it.
- `answer`: none of these. Nothing shows that a contract rejects it.

Each mutant counts by itself, and fails only with the reason `answer`. The last line is 'N passed, M failed'.
"""
import argparse
import concurrent.futures
import os
import re
import shutil
import signal
import subprocess
import sys
import tempfile
import time
from pathlib import Path

sys.dont_write_bytecode = True
import edit_files
import edits
import gate_edits
import tested_edits

# What the checker prints of a goal that it cannot prove alone.
GOAL = re.compile(r"^note: `([^`]+)` of (?:\./)?proofs/(\S+)/Answers\.antt must prove: (.*)$", re.MULTILINE)
REASONS = ("tactics", "goal", "clause", "test", "answer")
NO_ANSWERS = "-- no answers\n"


def answers_of(crate, function):
    """The files of the proof by hand of a function, given as `function_of` of tools/edit_files.py does."""
    found = [*(crate / "proofs").rglob("Answers.antt"), *(crate / "proofs").rglob("Proof.antt")]
    words = lambda file: "::".join([crate.name, *file.parent.relative_to(crate / "proofs").parts])
    return [str(it.relative_to(crate)) for it in found if edits.is_of(function, words(it))]


def goals_in(said):
    """For each function with failed goals, by the path of its proof: the goals and their statements."""
    found = {}
    for goal, path, statement in GOAL.findall(said):
        found.setdefault(path, {})[goal] = statement
    return found


def reason_for(right, wrong):
    """Why a mutant is rejected, by the failed goals of the right body and of the mutant, both without answers."""
    if any(goal not in right for goal in wrong):
        return "goal"
    is_changed = lambda goal: goal.startswith("returns") and wrong[goal] != right[goal]
    return "clause" if any(map(is_changed, wrong)) else "answer"


class Trial:
    """The mutants of one crate whose functions have proofs by hand, tried in a proved copy of the crate."""

    def __init__(self, rt, crate):
        self.rt, self.crate, self.folder = rt, crate, Path(crate.folder)
        self.over_kept = edits.Trial(rt, crate, [], None).over_kept

    def goals_without_answers(self, files, texts):
        """The failed goals of a check of these texts without the answers of these functions, by function."""
        left_out = {path: NO_ANSWERS for paths in files.values() for path in paths}
        only = [word for function in files for word in gate_edits.words_of(function)]
        words = ["--jobs", "1", *only]
        ran = self.over_kept(lambda kept: self.rt.checked(self.crate, {**texts, **left_out}, words, kept))
        goals = goals_in(ran.stdout)
        path_of = lambda paths: str(Path(paths[0]).parent.relative_to("proofs"))
        return {function: goals.get(path_of(paths), {}) for function, paths in files.items()}

    def reasons(self, chosen, right):
        """The reasons for these mutants, by the functions that they change."""
        begun = time.monotonic()
        files = {function: answers_of(self.folder, function) for function in chosen}
        wrong = self.goals_without_answers(files, edit_files.texts_of(self.folder, [*chosen.values()]))
        edits.report(f"{self.crate.name}: {len(chosen)} without answers, {edits.seconds_since(begun)}")
        return {edit: reason_for(right[function], wrong[function]) for function, edit in chosen.items()}


def tested(edit, reason):
    """The reason, or `test` in place of `answer` if the mutant names a test that sees it."""
    return "test" if reason == "answer" and tested_edits.NAMED.search(edit.read_text(encoding="utf-8")) else reason


def reasons_in(rt, crate, jobs):
    """The reason for each mutant of a crate that has been proved in its folder."""
    folder = Path(crate.folder)
    found, by_hand = {}, []
    for edit in edit_files.edits_of(folder):
        function = edit_files.function_of(folder, edit)
        if function and answers_of(folder, function):
            by_hand.append(edit)
        else:
            found[edit] = "tactics"
    trial = Trial(rt, crate)
    functions = {edit_files.function_of(folder, it) for it in by_hand}
    parts = [sorted(functions)[at::jobs] for at in range(jobs)]
    rounds, alone = edits.rounds_of(folder, by_hand)
    rounds += [{edit_files.function_of(folder, it): it} for it in alone]
    with concurrent.futures.ThreadPoolExecutor(jobs) as pool:
        files = lambda part: {it: answers_of(folder, it) for it in part}
        right = {}
        for goals in pool.map(lambda part: trial.goals_without_answers(files(part), {}) if part else {}, parts):
            right.update(goals)
        for reasons in pool.map(lambda chosen: trial.reasons(chosen, right), edits.split(rounds, jobs)):
            found.update(reasons)
    return {edit: tested(edit, reason) for edit, reason in found.items()}


def try_crate(rt, name, jobs):
    """The reasons of the mutants of a crate, by their names."""
    scratch = [edit_files.ROOT / "tools" / "scratch.sh", name]
    place = subprocess.run(scratch, stdout=subprocess.PIPE, text=True, check=True).stdout.strip()
    try:
        tempfile.tempdir = place
        crate = next(it for it in rt.rtlib.crates_below(f"{place}/crates") if it.name == name)
        for folder in edit_files.FOLDERS:
            if (edits.CRATES / name / folder).is_dir():
                shutil.copytree(edits.CRATES / name / folder, f"{crate.folder}/{folder}")
        edits.prove(rt, crate, jobs)
        return {edits.name_of(it): reason for it, reason in reasons_in(rt, crate, jobs).items()}
    finally:
        tempfile.tempdir = None
        shutil.rmtree(place, ignore_errors=True)


def main():
    parser = argparse.ArgumentParser(description=__doc__, formatter_class=argparse.RawDescriptionHelpFormatter)
    parser.add_argument("--jobs", type=int, default=len(os.sched_getaffinity(0)))
    parser.add_argument("crates", nargs="+", metavar="CRATE")
    asked = parser.parse_args()
    for it in (signal.SIGINT, signal.SIGTERM, signal.SIGHUP):
        signal.signal(it, edits.end)
    passed = failed = 0
    try:
        rt = edits.toolchain()
        rt.rtlib.guarded()
        for name in asked.crates:
            reasons = try_crate(rt, name, asked.jobs)
            for edit in sorted(it for it in reasons if reasons[it] == "answer"):
                print(f"{edit}: nothing shows that a contract rejects it")
            counts = ", ".join(f"{reason} {[*reasons.values()].count(reason)}" for reason in REASONS)
            print(f"{name}: {len(reasons)} mutants: {counts}", flush=True)
            failed += [*reasons.values()].count("answer")
            passed += len(reasons) - [*reasons.values()].count("answer")
    except edits.Fault as fault:
        print(f"edit_reasons.py: {fault}")
        failed += 1
    print(f"{passed} passed, {failed} failed")
    return 1 if failed or not passed else 0


if __name__ == "__main__":
    sys.exit(main())
