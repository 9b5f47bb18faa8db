#!/usr/bin/env python3
"""gate_edits.py [CRATE..]: tries the mutants that tools/gate_edits.txt lists, of all crates or of these, and reports
those that the checker doesn't reject. ./test runs it.

`rt must-fail` proves a crate once more before it tries mutants of it. Here a check has only the functions that the
mutants change, and those that they call, proved. One check tries mutants of different functions, as in tools/edits.py.
A mutant about which it decides nothing is tried alone, as `rt must-fail` tries it.

Each mutant counts by itself. The last line is 'N passed, M failed'.
"""
import concurrent.futures
import os
import re
import signal
import sys
import tempfile
import time
from pathlib import Path

sys.dont_write_bytecode = True
import build
import edit_files
import edits

LIST = edit_files.ROOT / "tools" / "gate_edits.txt"
# More than any check of some functions takes, in bytes: the largest is of `txc_table`.
MOST_MEMORY = 2_500_000_000
# The last line of a check of some functions: how many they are, and how many of them are proved.
PROVED = re.compile(r"^only=(\d+) proved=(\d+)\b.*\n*\Z", re.MULTILINE)


def listed():
    """The mutants of the list, by their crates."""
    found = {}
    for line in LIST.read_text(encoding="utf-8").splitlines():
        crate, slash, name = line.partition("#")[0].strip().partition("/")
        if slash:
            found.setdefault(crate, []).append(edits.CRATES / crate / "edits" / f"{name}.edit")
    missing = [edits.name_of(it) for of_crate in found.values() for it in of_crate if not it.is_file()]
    if missing:
        raise edits.Fault(f"{LIST.name} lists what is not there: {', '.join(missing)}")
    return found


def words_of(function):
    """The words that have a check prove a function, given as `function_of` of tools/edit_files.py does."""
    file, owner, name = function
    modules = file.removeprefix("src/").removesuffix(".rt").split("/")
    path = [owner] if owner else [it for it in modules if it not in ("lib", "main", "mod")]
    return ["--only", "::".join([*path, name])]


class Trial:
    """The listed mutants of one crate, each check over what the ones before it proved."""

    def __init__(self, rt, crate, kept):
        self.rt, self.crate, self.folder, self.kept = rt, crate, Path(crate.folder), kept

    def rejected(self, tried):
        """Those of these mutants that are rejected."""
        rounds, alone = edits.rounds_of(self.folder, tried)
        found = [it for chosen in rounds for it in self.together(chosen)]
        alone += [it for chosen in rounds for it in chosen.values() if it not in found]
        return found + [it for it in alone if self.alone(it)]

    def checked(self, chosen):
        """What a check says of the functions that these mutants change, and the texts that it was given."""
        texts = edit_files.texts_of(self.folder, [*chosen.values()])
        words = [word for function in chosen for word in words_of(function)]
        return self.rt.checked(self.crate, texts, ["--jobs", "1", *words], self.kept).stdout, texts

    def together(self, chosen):
        """Those of the chosen mutants, by the functions that they change, that one check rejects."""
        said, texts = self.checked(chosen)
        return edits.rejected_in(self.rt, said, texts, chosen) or []

    def alone(self, edit):
        """Whether a mutant is rejected that is tried alone: by a check of its function, else by one of the crate."""
        function = edit_files.function_of(self.folder, edit)
        if function:
            said, texts = self.checked({function: edit})
            proved = PROVED.search(said)
            is_read = not any(self.rt.unread(line, texts) for line in said.splitlines())
            if is_read and proved and int(proved[2]) < int(proved[1]):
                return True
        kind, said = self.rt.must_fail(self.crate, str(edit), ["--jobs", "1"], self.kept)
        edits.report(said)
        return edits.is_rejection(self.rt, kind)


def try_crate(rt, crate, tried):
    """How many of these mutants of a crate are rejected."""
    begun = time.monotonic()
    with tempfile.TemporaryDirectory(prefix="kept-") as kept:
        rejected = Trial(rt, crate, kept).rejected(tried)
    for it in tried:
        if it not in rejected:
            edits.report(f"{edits.name_of(it)}: not rejected")
    edits.report(f"{crate.name}: {len(rejected)} of {len(tried)} rejected, {edits.seconds_since(begun)}")
    return len(rejected)


def crates_of(rt, names):
    """The crates of these names, with the libraries below them proved, those with the longest proofs first."""
    found = [it for it in rt.rtlib.crates_below(str(edits.CRATES)) if it.name in names]
    for below in (below for crate in found for below in crate.below()):
        if not below.is_built() and below.build_rlib(["--jobs", "1"], anew=False):
            raise edits.Fault(f"{below.name} is not proved")
    return sorted(found, key=lambda it: -build.weight_of(it, build.weights())[0])


def lanes(rt):
    """How many checks can run side by side."""
    most = int(os.environ.get("RT_JOBS") or rt.rtlib.cores())
    return next(it for it in range(most, 0, -1) if it == 1 or rt.rtlib.fits(*[MOST_MEMORY] * it))


def try_all(names):
    """How many mutants of these crates, or of all, are rejected, and how many not."""
    tried, rt = listed(), edits.toolchain()
    unknown = [it for it in names if it not in tried]
    if unknown:
        raise edits.Fault(f"{LIST.name} lists no mutant of {' or '.join(unknown)}")
    # Its first call sets a signal's handler, which only the main thread may.
    rt.rtlib.guarded()
    crates = crates_of(rt, names or tried)
    with tempfile.TemporaryDirectory(prefix="gate-edits-") as place:
        # The toolchain's own scratch folders are made there too.
        tempfile.tempdir = place
        with concurrent.futures.ThreadPoolExecutor(lanes(rt)) as pool:
            passed = sum(pool.map(lambda it: try_crate(rt, it, tried[it.name]), crates))
        tempfile.tempdir = None
    return passed, sum(len(tried[it.name]) for it in crates) - passed


def main(names):
    for it in (signal.SIGINT, signal.SIGTERM, signal.SIGHUP):
        signal.signal(it, edits.end)
    try:
        passed, failed = try_all(names)
    except (edits.Fault, edit_files.Invalid) as fault:
        print(f"gate_edits.py: {fault}")
        passed, failed = 0, 1
    print(f"{passed} passed, {failed} failed")
    return 1 if failed or not passed else 0


if __name__ == "__main__":
    sys.exit(main(sys.argv[1:]))
