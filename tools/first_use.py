#!/usr/bin/env python3
"""What a new user meets: `./try`, and `./chanrun` where the program isn't built yet.

- Three scripts by `./try`, that is by the reference model, and one by `./try --checked`, the program without proofs:
  each with its stored report and status, one line on standard error, and nothing left in the repository or among the
  temporary files.
- The first build, in a copy of the repository's layout and by the toolchain that tools/seeming/ has, which only seems
  to prove: what is said while it goes on, what is said where it can't go on, what is built again afterwards, and that
  `check` and `replay` wait for the crates of `chanrun_replay` only.

Each of these counts by itself. The last line is 'N passed, M failed'.
"""

import concurrent.futures
import contextlib
import os
import pty
import re
import shutil
import signal
import subprocess
import sys
import tempfile
import time
from pathlib import Path
from types import SimpleNamespace

# Nothing is written beside the tools.
sys.dont_write_bytecode = True
import plan

ROOT = Path(__file__).resolve().parent.parent
SEEMING = ROOT / "tools" / "seeming"
SCRIPT = b'{"version": 1}\n'
# What a program prints for `run` that is built by tools/seeming/rt, and its status.
ANSWER = (b"words run\n" + SCRIPT, 3)
# The program of `check` and `replay`.
REPLAY = "chanrun_replay"
# By the word, the script and the file of its report: an example, one that stalls, and one that is refused.
TRIED = [("replay", "examples/hello.json", "examples/hello.report"),
         ("run", "scripts/read_of_nothing_stalls.json", "scripts/read_of_nothing_stalls.report"),
         ("check", "scripts/refused_scripts-not_utf8.json", "scripts/refused_scripts-not_utf8.report")]
SECONDS = 60


class Wrong(Exception):
    """What is other than it has to be."""


def hold(holds, what):
    if not holds:
        raise Wrong(what)


class Repository:
    """A copy of the repository's layout, with crates that have no text, and the toolchain that only seems to prove."""

    def __init__(self, place):
        self.root, self.place = place / "repository", place
        (self.root / "tools").mkdir(parents=True)
        for name in ("chanrun", "crates.txt", "tools/build.py", "tools/plan.py", "tools/weights.txt"):
            shutil.copy(ROOT / name, self.root / name)
        for line in (ROOT / "crates.txt").read_text().splitlines():
            if not line.startswith("#"):
                name = re.split("[: ]", line)[0]
                source = self.root / "crates" / name / "src"
                source.mkdir(parents=True)
                is_program = (ROOT / "crates" / name / "src" / "main.rt").exists()
                (source / ("main.rt" if is_program else "lib.rt")).write_text("")
        shutil.copytree(SEEMING, place / "toolchain", ignore=shutil.ignore_patterns("__pycache__"))
        (place / "python").mkdir()
        (place / "python" / "python3").symlink_to(sys.executable)
        self.log = place / "log"
        self.log.write_text("")

    def command(self, word="run", **seeming):
        """What starts `./chanrun` so with this word, with no other toolchain at hand."""
        path = f"{self.place}/toolchain:{self.place}/python:/usr/bin:/bin"
        environment = {"PATH": path, "SEEMING_LOG": str(self.log)}
        environment.update({f"SEEMING_{name.upper()}": value for name, value in seeming.items()})
        return {"args": [str(self.root / "chanrun"), word], "env": environment}

    def run(self, **seeming):
        run = subprocess.run(**self.command(**seeming), input=SCRIPT, capture_output=True, timeout=SECONDS, check=False)
        return run.stdout, run.returncode, run.stderr.decode().splitlines()

    def beside(self):
        """What a build left beside what others need of a crate."""
        return [*self.root.glob("crates/*/out/incremental"), *self.root.glob("crates/*/out/first-proof")]

    def start(self, **seeming):
        how = {"stdin": subprocess.PIPE, "stdout": subprocess.PIPE, "stderr": subprocess.PIPE}
        return subprocess.Popen(**self.command(**seeming), **how)

    def begun(self):
        return [line.split()[1] for line in self.log.read_text().splitlines() if line.startswith("begin ")]

    def left_by(self):
        """What the proof of each library left."""
        lines = [line.split() for line in self.log.read_text().splitlines()]
        return {line[1]: line[3] for line in lines if line[0] == "begin" and not line[1].startswith("chanrun")}

    def wait_for(self, text):
        """Waits until the log has this text."""
        for _ in range(50 * SECONDS):
            if text in self.log.read_text():
                return
            time.sleep(0.02)
        raise Wrong(f"no '{text}' after {SECONDS} s")

    def weigh(self, name, column, number):
        """Gives a crate another weight: of its seconds, its memory or its room."""
        file = self.root / "tools" / "weights.txt"
        rows = [line.split() for line in file.read_text().splitlines()]
        for row in rows:
            if row[0] == name:
                row[column] = str(number)
        file.write_text("".join(" ".join(row) + "\n" for row in rows))


def needed(program="chanrun"):
    """The crates that a program needs, each with those that it uses, from crates.txt."""
    uses = {}
    for line in (ROOT / "crates.txt").read_text().splitlines():
        words, _, below = line.partition("#")[0].partition(":")
        if words.strip():
            uses[words.split()[0]] = below.split()
    found, more = {}, [program]
    while more:
        name = more.pop()
        found[name] = [it for it in uses[name] if it in uses]
        more += [it for it in found[name] if it not in found]
    return found


def weights():
    """The seconds that the proof of each crate takes."""
    rows = [line.split() for line in (ROOT / "tools" / "weights.txt").read_text().splitlines()]
    return {row[0]: float(row[1]) for row in rows if row[0] != "#"}


def chains():
    """The seconds of the longest chain of crates that begins with each, as the weights have it."""
    uses, seconds = needed(), weights()

    def chain(name):
        return seconds[name] + max((chain(it) for it in uses if name in uses[it]), default=0)

    return {name: chain(name) for name in uses}


def refused(run, words):
    """A build that can't go on says so in a last line that has these words, and the program isn't run."""
    printed, status, said = run
    hold((printed, status) == (b"", 1), f"status {status}, printed {printed!r}")
    hold(said and re.search(words, said[-1]), f"'{words}' isn't in the last line of {said}")
    hold(all(line.startswith("chanrun: ") for line in said), f"lines of others: {said}")


def builds_what_is_needed(repository):
    printed, status, said = repository.run(seconds="0.3")
    hold((printed, status) == ANSWER, f"status {status}, printed {printed!r}")
    uses, chain = needed(), chains()
    hold(sorted(repository.begun()) == sorted(uses), f"proved {repository.begun()}")
    proved, at_work, most = set(), set(), 0
    for line in repository.log.read_text().splitlines():
        word, name = line.split()[:2]
        hold(word == "end" or proved.issuperset(uses[name]), f"{name} began before those below it had ended")
        proved.update([name] if word == "end" else [])
        at_work ^= {name}
        most = max(most, len(at_work))
        # One more than there are processors, where it is waited for longer than another that is at work.
        hold(len(at_work) <= 4 or chain[name] > min(map(chain.get, at_work)), f"{name} began beside {at_work}")
    hold(1 < most <= 5, f"{most} side by side")
    begins = rf"chanrun: first run: proving {len(uses)} crates \(about \d+ minutes\); for an unproved answer now, "
    hold(re.fullmatch(begins + "run ./try", said[0]), said[0])
    hold(len(said) == 1 + len(uses) and all("] proved " in line for line in said[1:]), f"said {said}")
    goes_on = r"proved txc_\w+; proving txc_\w+.*; less than 1 min elapsed, (about \d+|less than 1) min left"
    hold(re.fullmatch(rf"chanrun: \[7/{len(uses)}\] {goes_on}", said[7]), said[7])
    hold(said[-1] == "chanrun: [{0}/{0}] proved chanrun; less than 1 min elapsed".format(len(uses)), said[-1])
    hold({*repository.left_by().values()} == {"statements"}, f"left by proofs: {repository.left_by()}")
    hold(not repository.beside(), f"left {repository.beside()}")
    printed, status, said = repository.run()
    hold((printed, status, said) == (*ANSWER, []), f"once it is built: status {status}, said {said}")


def tasks_of(uses, seconds):
    """The proofs of these crates, lowest first, as tools/plan.py takes them."""
    crates = {}

    def crate(name):
        if name not in crates:
            below = [it for used in uses[name] for it in [*crate(used).below(), crate(used)]]
            crates[name] = SimpleNamespace(name=name, below=lambda: below)
        return crates[name]

    for name in uses:
        crate(name)
    return [plan.Task(it, (seconds[it.name], 0, 0)) for it in crates.values()]


def forecast_follows_the_pace(_):
    """What is left to wait is forecast by the pace of the proofs that have ended, and by those that are overdue."""
    uses, seconds = needed(), weights()
    tasks = tasks_of(uses, seconds)
    for processors in (1, 2, 4):
        forecast = plan.Forecast(tasks, processors)
        whole, ends = forecast.left(0), sorted(forecast.expected.items(), key=lambda it: it[1])
        hold(sum(seconds[it] for it in uses) / processors <= whole <= sum(seconds[it] for it in uses), f"{whole} s")
        hold(abs(whole - ends[-1][1]) < 1, f"{whole} s are forecast, and the last proof ends at {ends[-1]}")
        # The first proof takes three times what was expected. Before that is known it is overdue.
        hold(abs(forecast.left(2 * ends[0][1]) - 2 * (whole - ends[0][1])) < 1, "an overdue proof is no slower pace")
        for name, end in ends:
            forecast.end(name, 3 * end)
            left, wanted = forecast.left(3 * end), 3 * (whole - end)
            # The first seconds say little.
            least = 0.6 * wanted if end > 60 else whole - 3 * end
            hold(least <= left <= wanted + 1, f"after {name} {left:.0f} s are forecast in place of {wanted:.0f}")


def builds_again_after_an_edit(repository):
    repository.run()
    time.sleep(0.02)
    (repository.root / "crates" / "txc_cmd" / "src" / "lib.rt").write_text("")
    (repository.root / "crates" / "txc_cmd" / "out" / "rlib" / "stamp").unlink()
    (repository.root / "crates" / "txc_base" / "out" / "incremental").mkdir()
    repository.log.write_text("")
    printed, status, _ = repository.run()
    hold((printed, status) == ANSWER and repository.begun() == ["txc_cmd", "chanrun"], repository.begun())
    hold((repository.root / "crates" / "txc_base" / "out" / "incremental").is_dir(), "what was kept before is gone")


def builds_replay_first(repository):
    """`check` and `replay` wait for the crates of a program of their own, `run` for the others too."""
    log, wanted = repository.log, lambda word: (f"words {word}\n".encode() + SCRIPT, 3)
    printed, status, said = repository.run(word="replay")
    hold((printed, status) == wanted("replay"), f"status {status}, printed {printed!r}")
    small, whole = {*needed(REPLAY)}, {*needed()}
    hold(sorted(repository.begun()) == sorted(small), f"proved {repository.begun()}")
    hold(said[0].startswith(f"chanrun: first run: proving {len(small)} crates (about "), said[0])
    hold(said[-1].startswith("chanrun: [{0}/{0}] proved {1}; ".format(len(small), REPLAY)), said[-1])
    for word in ("check", "replay"):
        printed, status, said = repository.run(word=word)
        hold((printed, status, said) == (*wanted(word), []), f"{word} once it is built: status {status}, said {said}")
    log.write_text("")
    printed, status, said = repository.run()
    hold((printed, status) == ANSWER, f"status {status}, printed {printed!r}")
    hold(sorted(repository.begun()) == sorted(whole - small), f"proved {repository.begun()}")
    # What has changed in the crates that `run` alone needs isn't waited for, else it is.
    for name, proved in (("txc_table", []), ("txc_cmd_script", ["txc_cmd_script", REPLAY])):
        time.sleep(0.02)
        (repository.root / "crates" / name / "src" / "lib.rt").write_text("")
        (repository.root / "crates" / name / "out" / "rlib" / "stamp").unlink()
        log.write_text("")
        printed, status, said = repository.run(word="check")
        hold((printed, status, repository.begun()) == (*wanted("check"), proved), f"{name}: {repository.begun()}")
        hold(bool(said) == bool(proved), f"after a change of {name}: said {said}")


def leaves_what_was_kept(repository):
    """A crate that is being changed keeps its work for its next proof, and the others none."""
    (repository.root / "crates" / "txc_cmd" / "out" / "incremental").mkdir(parents=True)
    printed, status, _ = repository.run()
    hold((printed, status) == ANSWER, f"status {status}, printed {printed!r}")
    left = repository.left_by()
    hold([name for name in left if left[name] == "work"] == ["txc_cmd"], f"left by proofs: {left}")
    hold([it.parts[-3] for it in repository.beside()] == ["txc_cmd"], f"left {repository.beside()}")


def toolchain_without_statements(repository):
    printed, status, _ = repository.run(flags="--incremental")
    hold((printed, status) == ANSWER, f"status {status}, printed {printed!r}")
    hold({*repository.left_by().values()} == {"work"}, f"left by proofs: {repository.left_by()}")
    hold(not repository.beside(), f"left {repository.beside()}")


def rewrites_its_line(repository):
    above, below = pty.openpty()
    build = subprocess.Popen(**repository.command(seconds="0.2"), stdin=subprocess.DEVNULL, stdout=subprocess.DEVNULL,
                             stderr=below)
    os.close(below)
    text = b""
    while True:
        try:
            more = os.read(above, 1 << 16)
        except OSError:
            break
        if not more:
            break
        text += more
    os.close(above)
    build.wait()
    first, last, rest = text.split(b"\r\n")
    hold(b"first run: proving " in first and last.count(b"\x1b[K") > 5 and not rest, f"{text!r}")
    hold(last.endswith(b"\r\x1b[Kchanrun: [%d/%d] proved chanrun; less than 1 min elapsed" % (2 * (len(needed()),))),
         f"{text!r}")


def goes_on_after_an_interrupt(repository):
    proved = set()
    for number in (signal.SIGTERM, signal.SIGINT):
        build = repository.start(seconds="0.3")
        # What it says is proved stays proved. A proof that has just ended may not be noted yet, and nothing is said.
        said = b""
        while b"] proved " not in said:
            said = build.stderr.readline()
            hold(said, "the build ended before a crate was proved")
        proved.add(re.search(rb"\] proved (\w+);", said)[1].decode())
        build.send_signal(number)
        printed, said = build.communicate(timeout=SECONDS)
        hold((printed, build.returncode) == (b"", 128 + number), f"status {build.returncode}, said {said!r}")
        hold(b"the next run continues from there" in said, f"said {said!r}")
    repository.log.write_text("")
    printed, status, said = repository.run()
    hold((printed, status) == ANSWER, f"status {status}, said {said}")
    hold(not proved & {*repository.begun()}, f"{proved}, and then once more {repository.begun()}")


def second_one_waits(repository):
    first = repository.start(seconds="0.1")
    repository.wait_for("begin txc_base")
    printed, status, said = repository.run(seconds="0.1")
    one = first.communicate(SCRIPT, timeout=SECONDS)[0]
    hold((printed, status) == ANSWER and (one, first.returncode) == ANSWER, f"status {status}, said {said}")
    hold(said == ["chanrun: waiting for another build of this clone to end"], f"said {said}")
    hold(sorted(repository.begun()) == sorted(needed()), f"proved {repository.begun()}")


def crate_is_not_proved(repository):
    says = "fn txc_chan::chan::Chan::write: not proved\nlogic=not-proved"
    run = repository.run(fault="txc_chan", says=says)
    details = "for details run `rt check` in crates/txc_chan"
    refused(run, f"txc_chan is not proved: fn txc_chan::chan::Chan::write: not proved; {details}")
    refused(repository.run(fault="txc_chan", says="src/lib.rt:1:1: error: nothing"), "txc_chan .*error: nothing")
    refused(repository.run(fault="txc_chan", says="", status="2"), "txc_chan .* ended with status 2")
    refused(repository.run(rt_says="fn chanrun::main: not proved"), "chanrun is not proved: fn chanrun::main")


def there_is_no_toolchain(repository):
    shutil.rmtree(repository.place / "toolchain")
    run = repository.run()
    refused(run, "rt not found on PATH")
    hold(len(run[2]) == 1, f"said {run[2]}")


def there_is_no_room(repository):
    run = repository.run(fault="txc_base", says="error: out/rlib: No space left on device (os error 28)")
    refused(run, r"no room on the disk for the proof of txc_base: [0-9.]+ GB are free")
    repository.weigh("txc_table", 3, 900_000_000)
    run = repository.run()
    refused(run, r"no room on the disk: the build needs \d{7}\.\d GB below .*, and [0-9.]+ GB are free")
    hold(len(run[2]) == 1, f"said {run[2]}")


def there_is_too_little_memory(repository):
    refused(repository.run(fault="txc_base", says="", status="-9"), "too little memory: it needs [0-9.]+ GB")
    repository.weigh("txc_table", 2, 2_000_000)
    run = repository.run()
    refused(run, "too little memory: the proof of txc_table needs 2000.0 GB")
    hold(len(run[2]) == 1, f"said {run[2]}")


def memory_for_one_alone(repository):
    for name in needed():
        repository.weigh(name, 2, 900_000)
    printed, status, said = repository.run()
    hold((printed, status) == ANSWER, f"status {status}, said {said}")
    lines = [line.split() for line in repository.log.read_text().splitlines()]
    hold([line[0] for line in lines] == ["begin", "end"] * len(needed()), f"side by side: {lines}")
    hold(all(line[2] == "1" for line in lines if line[0] == "begin"), f"more than one job: {lines}")


def toolchain_of_another_form(repository):
    for text in (None, "def other():\n    pass\n"):
        file = repository.place / "toolchain" / "rtlib.py"
        file.write_text(text) if text else file.unlink()
        printed, status, said = repository.run()
        hold((printed, status) == ANSWER and repository.begun() == ["chanrun"], f"status {status}, said {said}")
        hold("one after another" in said[0], f"said {said}")
        repository.log.write_text("")
        (repository.root / "crates" / "chanrun" / "out" / "chanrun").unlink()
    refused(repository.run(rt_says="fn chanrun::main: not proved"), "not built: fn chanrun::main: not proved")


@contextlib.contextmanager
def open_folder(path):
    """A folder, opened as a file is, which can't be read."""
    folder = os.open(path, os.O_RDONLY)
    try:
        yield folder
    finally:
        os.close(folder)


def left_behind():
    """What lies in the repository beside its files."""
    words = ["git", "-C", str(ROOT), "status", "--porcelain", "--ignored", "--untracked-files=all"]
    return subprocess.run(words, capture_output=True, check=False).stdout


def answers(tried, place, *flags):
    """`./try` prints the stored report of a script, with its status."""
    word, script, report = tried
    wanted = ROOT / Path(report).with_suffix(".status")
    status = int(wanted.read_text()) if wanted.exists() else 0
    temporary = Path(tempfile.mkdtemp(dir=place))
    with open(ROOT / script, "rb") as given:
        run = subprocess.run([ROOT / "try", *flags, word], stdin=given, capture_output=True, timeout=900, check=False,
                             env={**os.environ, "TMPDIR": str(temporary)})
    hold((run.stdout, run.returncode) == ((ROOT / report).read_bytes(), status),
         f"{word} {script}: status {run.returncode}, printed {run.stdout[:200]!r}, said {run.stderr!r}")
    kind = b"without proofs" if flags else b"not of the proved program"
    hold(run.stderr.count(b"\n") == 1 and kind in run.stderr, f"said {run.stderr!r}")
    hold((b"round-robin order" in run.stderr) == (word == "run"), f"said {run.stderr!r}")
    hold(not any(temporary.iterdir()), f"left {[*temporary.iterdir()]}")


def try_gives_no_answer(place):
    """Where there is no Python, no toolchain, nothing to read, or an end before the answer."""
    temporary, shell, python = (Path(tempfile.mkdtemp(dir=place)) for _ in range(3))
    for name in ("bash", "dirname"):
        (shell / name).symlink_to(shutil.which(name))
    (python / "python3").symlink_to(sys.executable)
    words, checked = [ROOT / "try", "check"], [ROOT / "try", "--checked", "check"]
    how = {"capture_output": True, "check": False}
    without_rt = {"PATH": f"{python}:{shell}"}
    with open_folder(place) as folder:
        runs = [(b"python3 not found on PATH", subprocess.run(words, input=SCRIPT, env={"PATH": str(shell)}, **how)),
                (b"rt not found on PATH", subprocess.run(checked, input=SCRIPT, env=without_rt, **how)),
                (b"standard input can't be read", subprocess.run(checked, stdin=folder, **how))]
        unread = subprocess.run(words, stdin=folder, **how)
    for said, run in runs:
        hold((run.stdout, run.returncode) == (b"", 1), f"status {run.returncode}, printed {run.stdout!r}")
        hold(run.stderr.endswith(said + b"\n"), f"said {run.stderr!r}")
    hold((unread.stdout, unread.returncode) == (b"fault: read failed\n", 1), f"of a folder: {unread}")
    how = {"stdin": subprocess.PIPE, "stderr": subprocess.DEVNULL}
    with subprocess.Popen(checked, env={**os.environ, "TMPDIR": str(temporary)}, **how) as ended:
        ended.stdin.write(SCRIPT)
        ended.stdin.close()
        while not any(temporary.iterdir()) and ended.poll() is None:
            time.sleep(0.02)
        ended.send_signal(signal.SIGTERM)
        hold(ended.wait(timeout=5) == 143, f"status {ended.returncode}")
    hold(not any(temporary.iterdir()), f"left {[*temporary.iterdir()]}")


BUILDS = [builds_what_is_needed, forecast_follows_the_pace, builds_again_after_an_edit, builds_replay_first,
          leaves_what_was_kept, rewrites_its_line, goes_on_after_an_interrupt, second_one_waits, crate_is_not_proved,
          there_is_no_toolchain, there_is_no_room, there_is_too_little_memory, memory_for_one_alone,
          toolchain_of_another_form, toolchain_without_statements]


def main():
    # What is started in the background ignores this signal, and so would all that is started here.
    signal.signal(signal.SIGINT, signal.default_int_handler)
    before = left_behind()
    with tempfile.TemporaryDirectory() as place, concurrent.futures.ThreadPoolExecutor(len(TRIED)) as pool:
        runs = {f"try {' '.join(it[:2])}": pool.submit(answers, it, place) for it in TRIED}
        runs["try --checked"] = pool.submit(answers, TRIED[0], place, "--checked")
        runs["try without an answer"] = pool.submit(try_gives_no_answer, place)
        for number, build in enumerate(BUILDS):
            make = lambda build=build, number=number: build(Repository(Path(place) / f"build {number}"))
            runs[build.__name__] = pool.submit(make)
    failed = 0
    for name, run in runs.items():
        error = run.exception()
        if error:
            failed += 1
            print(f"{name}: {error if isinstance(error, Wrong) else repr(error)}")
    if left_behind() != before:
        failed += 1
        print("the test left files behind")
    print(f"{len(runs) + 1 - failed} passed, {failed} failed")
    return 1 if failed else 0


if __name__ == "__main__":
    sys.exit(main())
