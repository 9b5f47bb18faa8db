#!/usr/bin/env python3
"""edits.py [--jobs N] [--anew] CRATE..: tries all mutants of these crates and reports those that the checker doesn't
reject.
edits.py [--jobs N] [--anew] --all: tries the mutants of all crates.
edits.py --apply: reports the mutants of all crates that can't be applied. It proves nothing and takes a second.

A mutant is a file of crates/CRATE/must-fail/ or crates/CRATE/edits/ (tools/edit_files.py). All work is done in a copy
of the crate, which begins with what earlier checks of it kept.

One check tries many mutants, each in the body of another function. The checker names each function that has a goal
without a proof, and a change of a body leaves the goals of the other functions as they are. So a mutant is rejected if
a goal of its own function has no proof. A mutant about which such a check decides nothing, or which changes another
text than one body, is tried alone, as `rt must-fail` tries it. At most N checks run side by side: by default as many as
there are processors and memory for. Goals without a proof take longest in a check, and therefore large rounds are
divided.

A mutant that an earlier run on this machine rejected counts as rejected, if it and all that its crate is proved from
are as they were; with --anew it is tried again. So a run that was interrupted continues where it was.

Each mutant counts by itself. The last line is 'N passed, M failed'.
"""
import argparse
import concurrent.futures
import hashlib
import importlib.machinery
import importlib.util
import os
import re
import shutil
import signal
import subprocess
import sys
import tempfile
import time
from pathlib import Path

sys.dont_write_bytecode = True
import build
import edit_files

CRATES = edit_files.ROOT / "crates"
# What is used of the toolchain's command `rt`.
USED = ("checked", "must_fail", "rtlib", "unread")
# A line about a function, and what it says if the function's own proof fails, and not only the proof of a callee. If
# the line names refused declarations, the proof itself fails if one of them is in a file of this proof.
LINE = re.compile(r"^fn (\S+): (.*)$", re.MULTILINE)
OWN = re.compile(r"no proof: .*did not prove|not proved$")
REFUSED = "not proved; it stands on "
# How many mutants are worth a check of their own: with fewer, to load the crate takes longer than their goals.
FEWEST = 6
# The last line of a check that came to its proofs, of a whole crate or of some functions.
ENDED = re.compile(r"^(?:logic=(?:not-)?proved|only=\d+ proved=\d+)\b.*\n*\Z", re.MULTILINE)


class Fault(Exception):
    """Why mutants can't be tried, in one line."""


def toolchain():
    """The toolchain's command `rt` as a module."""
    command = shutil.which("rt")
    if command is None:
        raise Fault("no Rattle toolchain: rt not found on PATH")
    loader = importlib.machinery.SourceFileLoader("rt_command", os.path.realpath(command))
    found = importlib.util.module_from_spec(importlib.util.spec_from_loader("rt_command", loader))
    loader.exec_module(found)
    missing = [it for it in USED if not hasattr(found, it)]
    if missing:
        raise Fault(f"this toolchain's rt has no {', '.join(missing)}")
    return found


def name_of(edit):
    """CRATE/NAME of a mutant."""
    return f"{edit.parts[-3]}/{edit.stem}"


def is_of(function, path):
    """Whether the checker's name `path` is that of a function, given as `function_of` of tools/edit_files.py does."""
    return is_in(function, path) and path.endswith("::" + function[-1])


def is_in(function, path):
    """Whether `path` is the name of that function or of a part of it, as a closure. The checker names a method by the
    module of its type, whatever file it is in: `Plain` for a method of `Plain`, `PlainHold` for one of `Hold`."""
    file, owner, name = function
    if owner:
        pairs = zip(path.split("::"), path.split("::")[1:])
        return any(after == name and re.match(rf"{owner}(?![a-z0-9_])", word) for word, after in pairs)
    parts = file.removeprefix("src/").removesuffix(".rt").split("/")
    modules, words = [it for it in parts if it not in ("lib", "main", "mod")], path.split("::")
    return words[1:1 + len(modules)] == modules and name in words[1 + len(modules):]


def rounds_of(crate, edits):
    """These mutants in lists that can each be tried in one check, and those that can't be tried with others."""
    rounds, alone = [], []
    for edit in edits:
        function = edit_files.function_of(crate, edit) if can_be_applied(crate, [edit]) else None
        fitting = [it for it in rounds if function not in it and can_be_applied(crate, [*it.values(), edit])]
        if function is None:
            alone.append(edit)
        elif fitting:
            fitting[0][function] = edit
        else:
            rounds.append({function: edit})
    return [it for it in rounds if len(it) > 1], alone + [edit for it in rounds if len(it) == 1 for edit in it.values()]


def split(rounds, jobs):
    """These rounds, the large ones divided, for this number of checks side by side: they end at about the same time."""
    mutants = sum(map(len, rounds))
    most = max(FEWEST, -(-mutants // (2 * jobs)))
    parts = []
    for chosen in rounds:
        pairs, count = [*chosen.items()], -(-len(chosen) // most)
        parts += [dict(pairs[at::count]) for at in range(count)]
    return sorted(parts, key=len, reverse=True)


class Rejections:
    """The mutants of one crate that runs on this machine rejected: a file for each, which holds the seconds that it
    took. Its name is a checksum of the mutant, the toolchain and all that the crate is proved from."""

    FOLDER = Path(os.environ.get("XDG_CACHE_HOME") or Path.home() / ".cache") / "yalwythen" / "rejections"

    def __init__(self, crate):
        toolchain = subprocess.run(["rt", "version"], stdout=subprocess.PIPE, check=True).stdout
        self.sources = hashlib.sha256(toolchain + crate.stamp().encode())
        self.added = []

    def file_of(self, edit):
        found = self.sources.copy()
        found.update(repr((edit.name, edit.read_bytes())).encode())
        return self.FOLDER / found.hexdigest()

    def seconds_of(self, edit):
        """How long it took to reject a mutant, or None if no run rejected it."""
        try:
            return float(self.file_of(edit).read_text(encoding="utf-8"))
        except (OSError, ValueError):
            return None

    def add(self, edits, begun):
        """Notes that one check, begun at this time, rejected these mutants."""
        each = (time.monotonic() - begun) / max(1, len(edits))
        self.FOLDER.mkdir(parents=True, exist_ok=True)
        for edit in edits:
            self.file_of(edit).write_text(f"{each:.1f}\n", encoding="utf-8")
            self.added.append(edit)

    def forget(self, edits):
        """Removes what any run noted of these mutants."""
        for edit in edits:
            self.file_of(edit).unlink(missing_ok=True)

    def take_back(self):
        """Removes what `add` noted in this run."""
        self.forget(self.added)


def can_be_applied(crate, edits):
    try:
        edit_files.texts_of(crate, edits)
    except edit_files.Invalid:
        return False
    return True


class Trial:
    """The mutants of one crate, tried in a copy of it that has been proved."""

    def __init__(self, rt, crate, edits, rejections):
        self.rt, self.crate, self.edits, self.rejections = rt, crate, edits, rejections
        self.folder = Path(crate.folder)
        self.kept = self.folder / "out" / "incremental"

    def run(self, jobs):
        """How many mutants are rejected."""
        rounds, alone = rounds_of(self.folder, self.edits)
        rounds = split(rounds, jobs)
        before = listing(self.kept)
        with concurrent.futures.ThreadPoolExecutor(jobs) as pool:
            rejected = {edit for found in pool.map(self.together, rounds) for edit in found}
            alone += [edit for it in rounds for edit in it.values() if edit not in rejected]
            found = len(rejected) + sum(pool.map(self.alone, alone))
        # Each check has links to these files.
        if listing(self.kept) != before:
            self.rejections.take_back()
            raise Fault(f"{self.crate.name}: a check changed what the proof of the crate kept")
        return found

    def over_kept(self, check):
        """What a check returns that is given what the proof of the crate kept."""
        with tempfile.TemporaryDirectory(prefix="kept-") as place:
            # A check of a static library seems to write into one of these files.
            copy = shutil.copy2 if self.crate.is_static else os.link
            shutil.copytree(self.kept, f"{place}/kept", copy_function=copy)
            return check(f"{place}/kept")

    def together(self, chosen):
        """Those of the chosen mutants, by the functions that they change, that one check rejects."""
        begun, edits = time.monotonic(), [*chosen.values()]
        texts = edit_files.texts_of(self.folder, edits)
        ran = self.over_kept(lambda kept: self.rt.checked(self.crate, texts, ["--jobs", "1"], kept))
        found = rejected_in(self.rt, ran.stdout, texts, chosen)
        if found is None:
            return self.by_halves(chosen)
        self.rejections.add(found, begun)
        report(f"{self.crate.name}: {len(found)} of {len(edits)} rejected in one check, {seconds_since(begun)}")
        return found

    def by_halves(self, chosen):
        """As `together`, if one check of the chosen mutants decides nothing."""
        if len(chosen) < 4:
            return []
        every, half = [*chosen.items()], len(chosen) // 2
        return [edit for part in (every[:half], every[half:]) for edit in self.together(dict(part))]

    def alone(self, edit):
        """Whether a mutant is rejected that is tried alone."""
        begun = time.monotonic()
        try:
            edit_files.texts_of(self.folder, [edit])
        except edit_files.Invalid as why:
            report(f"{name_of(edit)}: can't be applied: {why}")
            return False
        flags = ["--jobs", "1"]
        kind, said = self.over_kept(lambda kept: self.rt.must_fail(self.crate, str(edit), flags, kept))
        is_rejected = is_rejection(self.rt, kind)
        if is_rejected:
            self.rejections.add([edit], begun)
        report(f"{name_of(edit)}: rejected, tried alone, {seconds_since(begun)}" if is_rejected else said)
        return is_rejected


def rejected_in(rt, said, texts, chosen):
    """Those of the chosen mutants, by the functions that they change, that a check rejects, by what it said of these
    texts. None if one of them keeps the checker from the proofs of the others, or if a goal fails of a function that
    none of them changes."""
    if any(rt.unread(line, texts) for line in said.splitlines()) or not ENDED.search(said):
        return None
    failed = [path for path, why in LINE.findall(said) if is_own(path, why)]
    if not all(any(is_in(function, path) for function in chosen) for path in failed):
        return None
    return [it for function, it in chosen.items() if sum(is_of(function, path) for path in failed) == 1]


def is_own(path, why):
    """Whether what the checker says of the function with this name is that its own proof fails."""
    crate, _, function = path.replace("::", ".").partition(".")
    return bool(OWN.match(why)) or why.startswith(REFUSED) and f"`Rattle.{crate}.proofs.{function}." in why


def is_rejection(rt, kind):
    """Whether `must_fail` of the toolchain says that a mutant is rejected: in one kit by a flag, in another by a kind.
    """
    return kind if isinstance(kind, bool) else kind in (rt.REFUSED, rt.AT_LIMIT)


def link(source, target):
    """Makes a copy of a folder whose files are links to those of the folder."""
    shutil.copytree(source, target, copy_function=os.link)


def listing(folder):
    """The files below a folder, each with its size."""
    walked = ((Path(at) / name for name in names) for at, _, names in os.walk(folder))
    return sorted((str(file), file.stat().st_size) for files in walked for file in files)


def seconds_since(begun):
    return f"{time.monotonic() - begun:.0f} s"


def report(text):
    print(text, flush=True)


def prove(rt, crate, jobs):
    """Proves the copy of a crate, so that checks of its mutants begin with what this kept."""
    begun = time.monotonic()
    of_before, kept = CRATES / crate.name / "out" / "incremental", f"{crate.folder}/out/incremental"
    try:
        if of_before.is_dir():
            link(of_before, kept)
    except (OSError, shutil.Error):
        # Another check is at work there.
        shutil.rmtree(kept, ignore_errors=True)
    words = [*rt.rtlib.guarded(), shutil.which("rt"), "check", "--jobs", str(jobs)]
    how = {"stdin": subprocess.DEVNULL, "stdout": subprocess.PIPE, "stderr": subprocess.STDOUT, "errors": "replace"}
    ran = subprocess.run(words, cwd=crate.folder, check=False, **how)
    if ran.returncode:
        raise Fault(f"{crate.name} is not proved: {ran.stdout[-500:]}")
    report(f"{crate.name}: proved as it is, {seconds_since(begun)}")


def most_at_once(rt, crate, jobs):
    """How many checks of a crate can run side by side, at most so many."""
    memory = build.weight_of(crate, build.weights())[1]
    return next(it for it in range(jobs, 0, -1) if it == 1 or rt.rtlib.fits(*[memory] * it))


def try_crate(rt, name, jobs, is_anew):
    """How many mutants of a crate are rejected, and how many not."""
    scratch = [edit_files.ROOT / "tools" / "scratch.sh", name]
    place = subprocess.run(scratch, stdout=subprocess.PIPE, text=True, check=True).stdout.strip()
    try:
        # The toolchain's own scratch folders are made there too.
        tempfile.tempdir = place
        crate = next(it for it in rt.rtlib.crates_below(f"{place}/crates") if it.name == name)
        for folder in edit_files.FOLDERS:
            if (CRATES / name / folder).is_dir():
                shutil.copytree(CRATES / name / folder, f"{crate.folder}/{folder}")
        edits = edit_files.edits_of(Path(crate.folder))
        if not edits:
            raise Fault(f"{name} has no mutants")
        rejections = Rejections(crate)
        if is_anew:
            rejections.forget(edits)
        seconds = {it: rejections.seconds_of(it) for it in edits}
        left = [it for it in edits if seconds[it] is None]
        passed = len(edits) - len(left)
        if passed:
            took = sum(seconds[it] for it in edits if it not in left)
            report(f"{name}: {passed} of {len(edits)} rejected by earlier runs, in {took:.0f} s of checks")
        if left:
            prove(rt, crate, jobs)
            passed += Trial(rt, crate, left, rejections).run(most_at_once(rt, crate, jobs))
        return passed, len(edits) - passed
    except Fault as fault:
        report(str(fault))
        return 0, 1
    finally:
        tempfile.tempdir = None
        shutil.rmtree(place, ignore_errors=True)


def crates_with_edits():
    """The folders of all crates that have mutants."""
    return [it for it in sorted(CRATES.iterdir()) if edit_files.edits_of(it)]


def apply_all():
    """How many mutants can be applied, and how many not."""
    passed = failed = 0
    for crate in sorted(CRATES.iterdir()):
        for edit in [*edit_files.edits_of(crate), *edit_files.tested_in(crate)]:
            try:
                edit_files.texts_of(crate, [edit])
                passed += 1
            except edit_files.Invalid as why:
                report(f"{name_of(edit)}: can't be applied: {why}")
                failed += 1
    return passed, failed


def try_all(names, jobs, is_anew):
    """How many mutants of these crates are rejected, and how many not."""
    rt = toolchain()
    # Its first call sets a signal's handler, which only the main thread may.
    rt.rtlib.guarded()
    counts = [try_crate(rt, name, jobs or rt.rtlib.cores(), is_anew) for name in names]
    return tuple(map(sum, zip(*counts)))


def words_of(words):
    parser = argparse.ArgumentParser(usage=__doc__, add_help=False)
    parser.add_argument("--apply", action="store_true")
    parser.add_argument("--all", action="store_true")
    parser.add_argument("--anew", action="store_true")
    parser.add_argument("--jobs", type=int, default=0)
    parser.add_argument("crates", nargs="*")
    found = parser.parse_args(words)
    unknown = [it for it in found.crates if not (CRATES / it / "src").is_dir()]
    if unknown:
        parser.error(f"there is no crate {' or '.join(unknown)}")
    if found.apply + found.all + bool(found.crates) != 1 or found.jobs < 0:
        parser.error("give the names of crates, or --all, or --apply")
    return found


def end(number, _):
    """Ends at a signal: the checks that are under way end, and the copy is removed."""
    for task in Path("/proc/self/task").iterdir():
        for child in (task / "children").read_text().split():
            os.kill(int(child), signal.SIGKILL)
    if tempfile.tempdir:
        shutil.rmtree(tempfile.tempdir, ignore_errors=True)
    os._exit(128 + number)


def main(words):
    found = words_of(words)
    for it in (signal.SIGINT, signal.SIGTERM, signal.SIGHUP):
        signal.signal(it, end)
    try:
        names = [it.name for it in crates_with_edits()] if found.all else found.crates
        passed, failed = apply_all() if found.apply else try_all(names, found.jobs, found.anew)
    except Fault as fault:
        print(f"edits.py: {fault}")
        passed, failed = 0, 1
    print(f"{passed} passed, {failed} failed")
    return 1 if failed or not passed else 0


if __name__ == "__main__":
    sys.exit(main(sys.argv[1:]))
