#!/usr/bin/env python3
"""build.py [--keep] [COMMAND..]: proves the crates that a program needs, as many side by side as there are processors
and memory for, builds the program, and then becomes COMMAND. The program is the one that COMMAND begins with, as
crates/NAME/out/NAME, or `chanrun` if there is no COMMAND.
build.py [--keep] --only CRATE..: proves these libraries so, and those below them.

What is proved already is taken as it is, so that an interrupted build goes on where it was. Standard error says how far
it is: in one line that is rewritten where that is a terminal, else in a line for each crate. Standard output is left to
COMMAND. Where the program can't be built, one line says why, and the status is 1.

A crate is proved by the toolchain's own module `rtlib`, of which its command `rt` is made, so that to `rt` it is proved
too. Where the toolchain has no such module, or one of another form, `rt` proves all, one crate after another.

Of a crate that is proved stays what others can cite, without its proofs, as in the gate: that takes little room, and
the proof of a crate above loads no more. What a proof keeps for the next proof of the same crate is made only where it
was there before, or --keep is given, which is for those who are going to change the crates.
"""
import fcntl
import importlib.util
import os
import queue
import re
import shutil
import signal
import subprocess
import sys
import threading
import time

# Nothing is written beside the sources or the toolchain's files.
sys.dont_write_bytecode = True
from plan import Forecast, Plan, Task

ROOT = os.path.dirname(os.path.dirname(os.path.realpath(__file__)))
# The command that all messages name, and the program that is built if no other one is asked for.
COMMAND = "chanrun"
WEIGHTS = os.path.join(ROOT, "tools", "weights.txt")
# What is used of rtlib, and of its crates.
USED = ("Crate", "RATTLE", "crates_below", "cores", "fits", "guarded", "help_of", "lock", "stop")
USED_OF_A_CRATE = ("below", "build_rlib", "call", "has_kept", "is_built", "need", "stamp", "words")
# Where a proof keeps its work for the next one, in the crate's folder, and the mark that this was made here.
KEPT = "out/incremental"
OWN = "out/first-proof"
# Has a proof leave what others can cite of a library, and no proofs.
STATEMENTS = "--statements"
MEGABYTE = 1_000_000
GIGABYTE = 1_000_000_000
# So many seconds a proof may take until it holds most of its memory.
GROWING = 60
# What a proof keeps for the next one, beside what the crates above it need.
KEPT_BESIDE = 1.5
# So much a proof gives way to each that is waited for longer, as `nice` counts.
NICE = 5
NO_ROOM = re.compile(r"No space left on device|os error 28|Disk quota exceeded")
UNPROVED = re.compile(r"^(?:fn|struct|enum|impl) .*: (?:not proved|no proof)", re.M)
ERROR = re.compile(r"^.*\berror\b.*$", re.M)


class Fault(Exception):
    """Why the program can't be built, in one line."""


class Teller:
    """Says on standard error how far the build is."""

    def __init__(self):
        self.out = sys.stderr or open(os.devnull, "w")
        self.is_terminal = self.out.isatty()
        self.is_in_line = False

    def write(self, text):
        # Past Python's buffer, which can't be entered twice: a signal's handler may write in the midst of this. That no
        # one reads how far the build is doesn't end it.
        try:
            os.write(self.out.fileno(), text.encode())
        except OSError:
            pass

    def clear(self):
        if self.is_in_line:
            self.write("\r\033[K")
        self.is_in_line = False

    def line(self, text):
        """A line that stays."""
        self.clear()
        self.write("%s: %s\n" % (COMMAND, text))

    def state(self, text):
        """A line that the next one takes the place of, on a terminal alone."""
        if self.is_terminal:
            width = os.get_terminal_size(self.out.fileno()).columns or 80
            self.is_in_line = True
            self.write("\r%s\033[K" % ("%s: %s" % (COMMAND, text))[: width - 1])


class Log:
    """What the proof of one crate printed, in the place of a file."""

    def __init__(self):
        self.text = ""

    def write(self, text):
        self.text += text

    def flush(self):
        pass


class Build:
    """The proofs at work."""

    def __init__(self, rtlib, crates, plan, forecast, teller, keeps):
        self.rtlib, self.plan, self.forecast, self.teller, self.keeps = rtlib, plan, forecast, teller, keeps
        self.count, self.begun = len(crates), time.monotonic()
        # To see that one crate is as it was takes seconds, and isn't shown.
        self.is_shown = len(plan.left) > 1
        # Until the program is linked, no other rt works on what it is made of.
        self.held = rtlib.lock(crates)
        self.ended = queue.Queue()

    def run(self):
        while self.plan.left or self.plan.running:
            self.begin_what_can()
            now = time.monotonic()
            self.plan.measure(now, self.forecast.pace(now - self.begun))
            self.teller.state(self.state())
            try:
                task, status, said = self.ended.get(timeout=1)
            except queue.Empty:
                continue
            if status:
                raise Fault(why(task, status, said))
            self.plan.end(task)
            self.forecast.end(task.name, time.monotonic() - self.begun)
            self.let_go(task)
            self.begin_what_can()
            self.tell(task)

    def begin_what_can(self):
        for task in self.plan.ready():
            before = self.plan.before(task)
            jobs = self.plan.jobs_of(task)
            while jobs and not self.has_memory(task, jobs):
                jobs //= 2
            if jobs:
                self.plan.begin(task, jobs, time.monotonic())
                threading.Thread(target=self.work, args=(task, jobs, before), daemon=True).start()
        if self.plan.left and not self.plan.running:
            needed = min(it.memory for it in self.plan.ready())
            raise Fault("too little memory: the next proof needs %s" % size(needed))

    def has_memory(self, task, jobs):
        """Whether there is memory for it, beside what has begun and is still to grow."""
        now = time.monotonic()
        growing = [it.memory_of(it.jobs) for it in self.plan.running.values() if now - it.begun < GROWING]
        return self.rtlib.fits(sum(growing) + task.memory_of(jobs))

    def work(self, task, jobs, before):
        """Proves a crate, in a thread of its own."""
        said = Log()
        try:
            give_way(before)
            if not self.keeps and not os.path.isdir(os.path.join(task.crate.folder, KEPT)):
                os.makedirs(os.path.join(task.crate.folder, "out"), exist_ok=True)
                open(os.path.join(task.crate.folder, OWN), "w").close()
            status = (self.program if is_program(task.name) else self.library)(task, jobs, said)
        except BaseException as error:
            status = error
        self.ended.put((task, status, said.text))

    def library(self, task, jobs, said):
        # Where its files have changed meanwhile, rt proves it again before it builds the program.
        crate, flags = task.crate, ["--jobs", str(jobs)]
        crate.out = said
        if self.keeps or crate.has_kept() or STATEMENTS not in self.rtlib.help_of("build"):
            return crate.build_rlib(flags, anew=False)
        return self.statements(crate, flags)

    def statements(self, crate, flags):
        """Proves a library, of which others then load what they can cite. rt itself makes one so only in the gate."""
        stamp, folder = crate.stamp(), os.path.dirname(crate.rlib)
        shutil.rmtree(folder, ignore_errors=True)
        os.makedirs(folder)
        words = [*crate.words(flags, keeps=False), STATEMENTS]
        status = crate.call(self.rtlib.RATTLE, "build", *words, "-o", crate.rlib)
        if status == 0 and stamp == crate.stamp():
            with open(os.path.join(folder, "stamp"), "w", encoding="utf-8") as file:
                file.write(stamp)
        return status

    def program(self, task, jobs, said):
        """Proves, compiles and links it, and runs it on nothing, as `rt run` does."""
        for it in self.held:
            os.close(it)
        command = [*self.rtlib.guarded(), shutil.which("rt"), "run", "--jobs", str(jobs)]
        return run_by_rt(command, task.name, said.write)

    def let_go(self, task):
        """Removes what the proof kept, where no earlier one had."""
        mark = os.path.join(task.crate.folder, OWN)
        if os.path.exists(mark):
            if not self.keeps:
                shutil.rmtree(os.path.join(task.crate.folder, KEPT), ignore_errors=True)
            os.remove(mark)

    def state(self, ended=""):
        """How far all is, with the proof that has just ended."""
        gone = time.monotonic() - self.begun
        at_work = ", ".join(self.plan.running)
        proved = self.count - len(self.plan.left) - len(self.plan.running)
        times = [f"{minutes(gone, 'min')} elapsed"]
        if proved < self.count:
            times.append(f"{minutes(self.forecast.left(gone), 'min', 'about ')} left")
        parts = [f"proved {ended}" if ended else "", f"proving {at_work}" if at_work else "", ", ".join(times)]
        return f"[{proved}/{self.count}] " + "; ".join(it for it in parts if it)

    def tell(self, task):
        is_last = not self.plan.left and not self.plan.running
        if self.is_shown and (is_last or not self.teller.is_terminal):
            self.teller.line(self.state(task.name))
        elif is_last:
            self.teller.clear()


def size(number):
    return "%.1f GB" % (number / GIGABYTE)


def minutes(seconds, unit, about=""):
    """A time in whole minutes."""
    found = round(seconds / 60)
    return f"{about}{found} {unit}" if found else f"less than 1 {unit}"


def why(task, status, said):
    """Why the proof of a crate ended with that status."""
    if NO_ROOM.search(said) or NO_ROOM.search(str(status)):
        return "no room on the disk for the proof of %s: %s are free" % (task.name, size(free_room()))
    if status == -signal.SIGKILL:
        return "the proof of %s was killed, most likely for too little memory: it needs %s" % (
            task.name, size(task.memory))
    if isinstance(status, BaseException):
        return "%s is not proved: %s" % (task.name, str(status) or repr(status))
    found = UNPROVED.search(said) or ERROR.search(said)
    words = found[0][:200] if found else "the toolchain ended with status %d" % status
    return "%s is not proved: %s; for details run `rt check` in crates/%s" % (task.name, words, task.name)


def give_way(before):
    """Has what this thread starts leave the processors to so many other proofs, which are waited for longer."""
    thread = threading.get_native_id()
    os.setpriority(os.PRIO_PROCESS, thread, min(os.getpriority(os.PRIO_PROCESS, thread) + NICE * before, 19))


def free_room():
    found = os.statvfs(os.path.join(ROOT, "crates"))
    return found.f_bavail * found.f_frsize


def weights():
    """What the file of weights says of each crate."""
    found = {}
    with open(WEIGHTS, encoding="utf-8") as lines:
        for line in lines:
            words = line.partition("#")[0].split()
            if words:
                found[words[0]] = (float(words[1]), int(words[2]) * MEGABYTE, int(words[3]) * MEGABYTE)
    return found


def weight_of(crate, known):
    """Where a crate has no weight yet, about what one of the others takes."""
    return known.get(crate.name) or (100.0, crate.need() // 2, 100 * MEGABYTE)


def toolchain(command):
    """The module rtlib of the toolchain that has this command rt, or None where it has none of the form that is used
    here."""
    file = os.path.join(os.path.dirname(os.path.realpath(command)), "rtlib.py")
    spec = importlib.util.spec_from_file_location("rtlib", file)
    found = importlib.util.module_from_spec(spec)
    sys.modules["rtlib"] = found
    try:
        spec.loader.exec_module(found)
    except (OSError, SyntaxError, ImportError):
        return None
    crate = getattr(found, "Crate", None)
    has_all = all(hasattr(found, it) for it in USED) and all(hasattr(crate, it) for it in USED_OF_A_CRATE)
    return found if has_all else None


def refuse(reason):
    """Takes the place of rtlib's own end of the process."""
    raise Fault(reason)


def wait_for_others(teller):
    """Waits until no other build is at work here, and keeps others out as long as this process runs. Returns whether
    there was one."""
    held = os.open(os.path.join(ROOT, "crates"), os.O_RDONLY)
    try:
        fcntl.flock(held, fcntl.LOCK_EX | fcntl.LOCK_NB)
    except BlockingIOError:
        teller.line("waiting for another build of this clone to end")
        fcntl.flock(held, fcntl.LOCK_EX)
        return True
    except OSError:
        # Some file systems have no locks.
        pass
    return False


def built(program):
    """The file of the built program."""
    return os.path.join(ROOT, "crates", program, "out", program)


def is_program(name):
    return os.path.exists(os.path.join(ROOT, "crates", name, "src", "main.rt"))


def crates_of(program):
    """The crates that the program is made of, by crates.txt."""
    uses = {}
    with open(os.path.join(ROOT, "crates.txt"), encoding="utf-8") as lines:
        for line in lines:
            words, _, below = line.partition("#")[0].partition(":")
            if words.strip():
                uses[words.split()[0]] = below.split()
    found, more = set(), [program]
    while more:
        name = more.pop()
        if name in uses and name not in found:
            found.add(name)
            more += uses[name]
    return found


def is_newest(program):
    """Whether the program is there, and newer than all that it is made of."""
    made = os.path.getmtime(built(program)) if os.path.exists(built(program)) else 0
    files = [os.path.join(ROOT, "crates.txt")]
    for part in ("src", "specs", "proofs"):
        for crate in crates_of(program):
            walked = os.walk(os.path.join(ROOT, "crates", crate, part))
            files += [os.path.join(at, name) for at, _, names in walked for name in names]
    return all(os.path.getmtime(it) <= made for it in files)


def side_by_side(rtlib, teller, keeps, names):
    """Proves these crates and those below them, and builds the programs among them."""
    rtlib.stop = refuse
    # Its first call sets a signal's handler, which only the main thread may.
    rtlib.guarded()
    # Each comes after those below it.
    crates = rtlib.crates_below(os.path.join(ROOT, "crates"))
    unknown = {*names} - {it.name for it in crates}
    if unknown:
        raise Fault("crates.txt has no %s" % ", ".join(sorted(unknown)))
    needed = {below.name for it in crates if it.name in names for below in [*it.below(), it]}
    crates = [it for it in crates if it.name in needed]
    known = weights()
    left = [Task(it, weight_of(it, known)) for it in crates if is_program(it.name) or not it.is_built()]
    if not left:
        return
    plan = Plan(left, rtlib.cores())
    stop_without_room(left, plan.processors, keeps)
    stop_without_memory(rtlib, left)
    forecast = Forecast(left, plan.processors)
    if len(left) > 1:
        teller.line(first_line(len(left), len(crates), forecast.left(0), any(map(is_program, names))))
    Build(rtlib, crates, plan, forecast, teller, keeps).run()


def first_line(left, count, seconds, is_for_program):
    """What is to be proved, how long that takes, and how to have an answer meanwhile."""
    what = f"first run: proving {count} crates" if left == count else f"proving {left} of {count} crates"
    about = minutes(seconds, "minutes" if round(seconds / 60) > 1 else "minute", "about ")
    return f"{what} ({about})" + "; for an unproved answer now, run ./try" * is_for_program


def stop_without_room(left, at_once, keeps):
    rooms = sorted(it.room for it in left)
    at_work = sum(rooms if keeps else rooms[-at_once:])
    needed = int(sum(rooms) + KEPT_BESIDE * at_work)
    if free_room() < needed:
        raise Fault("no room on the disk: the build needs %s below %s, and %s are free" % (
            size(needed), os.path.join(ROOT, "crates"), size(free_room())))


def stop_without_memory(rtlib, left):
    most = max(left, key=lambda it: it.memory)
    if not rtlib.fits(most.memory):
        raise Fault("too little memory: the proof of %s needs %s" % (most.name, size(most.memory)))


def run_by_rt(command, program, write):
    """Runs `rt run` on nothing, and gives write each line that it says. The status is 0 where the program was built."""
    how = {"stdin": subprocess.DEVNULL, "stdout": subprocess.DEVNULL, "stderr": subprocess.PIPE}
    how["cwd"] = os.path.join(ROOT, "crates", program)
    is_built = False
    with subprocess.Popen(command, universal_newlines=True, errors="replace", **how) as child:
        for line in child.stderr:
            write(line)
            is_built = is_built or line.startswith("rt: running out/%s" % program)
    return 0 if is_built else child.returncode or 1


def in_turn(command, teller, program):
    """Has `rt run` prove the crates, one after another, and build the program."""
    teller.line("first run: proving the crates one after another")
    said = Log()

    def write(line):
        said.write(line)
        found = re.match(r"rt: chose --jobs \d+ for (\w+)", line)
        if found:
            (teller.state if teller.is_terminal else teller.line)("proving %s" % found[1])

    if run_by_rt([command, "run"], program, write):
        found = NO_ROOM.search(said.text) or UNPROVED.search(said.text) or ERROR.search(said.text)
        raise Fault("not built: %s" % (found[0][:200] if found else "for details run `rt run` in crates/%s" % program))


def end_at_signals(teller):
    """What was begun ends with this process, in whatever way it does: rtlib sees to that."""

    def end(number, _):
        teller.line("interrupted; finished proofs are kept, and the next run continues from there")
        os._exit(128 + number)

    for it in (signal.SIGINT, signal.SIGTERM, signal.SIGHUP):
        if signal.getsignal(it) != signal.SIG_IGN:
            signal.signal(it, end)


def become(command):
    """Runs the command in the place of this process, with the signals that Python turns off."""
    for it in (signal.SIGPIPE, signal.SIGXFSZ):
        signal.signal(it, signal.SIG_DFL)
    os.execv(command[0], command)


def make(teller, keeps, only, program):
    """Proves these crates, or builds the program where there are none."""
    command = shutil.which("rt")
    if command is None:
        raise Fault("no Rattle toolchain: rt not found on PATH")
    if wait_for_others(teller) and not only and is_newest(program):
        return
    begun = time.time()
    rtlib = toolchain(command)
    if rtlib:
        side_by_side(rtlib, teller, keeps, only or [program])
    elif not only:
        in_turn(command, teller, program)
    if not only:
        # A file that is edited while it is built is newer.
        os.utime(built(program), (begun, begun))


def program_of(command):
    """The program that the command begins with, or the one that is built if it begins with none."""
    name = os.path.basename(command[0]) if command else COMMAND
    return name if is_program(name) else COMMAND


def main(words):
    keeps = words[:1] == ["--keep"]
    words = words[keeps:]
    only = words[1:] if words[:1] == ["--only"] else []
    teller = Teller()
    end_at_signals(teller)
    try:
        make(teller, keeps, only, program_of(words))
    except Fault as fault:
        teller.line(str(fault))
        return 1
    if words and not only:
        become(words)
    return 0


if __name__ == "__main__":
    sys.exit(main(sys.argv[1:]))
