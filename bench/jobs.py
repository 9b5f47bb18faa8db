"""jobs.py PLACE ROUNDS: runs the ten jobs by the programs that jobs.sh has built in PLACE, and prints the machine, its
load and a table. For ROUNDS there may stand --quick, or --growth: then only ours are run, with more and more
transactions."""
import os
import re
import shutil
import subprocess
import sys
import threading
import time
from statistics import median

# Transactions of a run. Each job's workers share them without a rest, also where they are halved or divided by ten.
COUNTS = {"solo": 480_000, "two": 480_000, "four": 480_000, "pipeline": 480_000, "bounded": 480_000, "ring": 96_000,
          "broadcast": 480_000, "choice": 480_000, "pingpong": 48_000, "pingpongs": 48_000}
QUICK = 4_800
# How many transactions the runs have by which growth is seen, and how often each is made.
GROWTH, TURNS = (10_000, 100_000, 1_000_000, 10_000_000), 5
# A run that takes longer is ended, and with it the bench.
SECONDS = 300


def programs(place):
    """By which program a job is run: its name, the words before the job and those behind the count."""
    ours = place + "/crates/bench_jobs/out/bench_jobs"
    found = [("a run", [ours, "run"], []),
             ("a service", [ours, "serve"], []),
             ("a mutex", [place + "/threads", "jobs"], [])]
    if os.path.exists(place + "/stm"):
        found += [("GHC's stm, %s" % flag, [place + "/stm", "jobs"], ["+RTS", flag]) for flag in ("-N1", "-N4")]
    return found


def run(command):
    """What the command prints, and the processor time in nanoseconds and the largest memory in bytes of it."""
    with subprocess.Popen(command, stdout=subprocess.PIPE) as child:
        end = threading.Timer(SECONDS, child.kill)
        end.start()
        text = child.stdout.read()
        _, status, used = os.wait4(child.pid, 0)
        child.returncode = os.waitstatus_to_exitcode(status)
        end.cancel()
    if child.returncode:
        sys.exit("%s ended with status %d" % (" ".join(command), child.returncode))
    return text, 1e9 * (used.ru_utime + used.ru_stime), 1024 * used.ru_maxrss


def resident(command):
    """The largest memory of it in bytes. The system counts that of the process which began it too, so a small one has
    to: by this one alone, what takes less than Python couldn't be told apart."""
    if not os.path.exists("/usr/bin/time"):
        return run(command)[2]
    done = subprocess.run(["/usr/bin/time", "-f", "%M", *command], capture_output=True, check=True, timeout=SECONDS)
    return 1024 * int(done.stderr.split()[-1])


def futexes(place, command):
    """How often it called futex, or None where that can't be counted."""
    found = place + "/futexes"
    if shutil.which("strace"):
        words = ["strace", "-f", "-c", "-U", "calls,name", "-e", "trace=futex", "-o", found]
        pattern = r"^\s*(\d+) futex$"
    elif shutil.which("perf"):
        words = ["perf", "stat", "-x", ",", "-e", "syscalls:sys_enter_futex", "-o", found]
        pattern = r"^(\d+),.*sys_enter_futex"
    else:
        return None
    if subprocess.run([*words, *command], capture_output=True, timeout=SECONDS).returncode:
        return None
    with open(found, encoding="utf-8") as lines:
        match = re.search(pattern, lines.read(), re.MULTILINE)
    # Where there was no call, strace has no line for it.
    return int(match[1]) if match else 0


class Row:
    """A job by one program."""

    def __init__(self, job, count, program):
        self.job, self.count = job, count
        self.name, self.before, self.behind = program
        self.times, self.worked = [], []

    def command(self, count):
        return [*self.before, self.job, str(count), *self.behind]

    def turn(self):
        text, worked, _ = run(self.command(self.count))
        self.times.append(int(text))
        self.worked.append(worked / self.count)

    def bytes(self, turns):
        """Of a transaction: what a run takes beyond that of half as many, over the other half."""
        whole, half = (median(resident(self.command(count)) for _ in range(turns))
                       for count in (self.count, self.count // 2))
        return (whole - half) / (self.count - self.count // 2)

    def line(self, place, turns):
        few = self.count // 10
        calls = futexes(place, self.command(few))
        row = [self.job, self.name, *("%d" % of(times) for times in (self.times, self.worked) for of in (min, median)),
                "-" if calls is None else "%.2f" % (calls / few), "%d" % round(self.bytes(turns), 0)]
        return "| %s |" % " | ".join(row)


class Load:
    """What the processors did since it was made."""

    def __init__(self):
        self.begun, self.own = self.ticks(), self.own_seconds()

    def ticks(self):
        with open("/proc/stat", encoding="utf-8") as lines:
            # user, nice, system, idle, iowait, irq, softirq, steal
            return [int(word) for word in lines.readline().split()[1:9]]

    def own_seconds(self):
        return sum(os.times()[:4])

    def text(self):
        gone = [now - then for now, then in zip(self.ticks(), self.begun)]
        every = max(sum(gone), 1)
        own = (self.own_seconds() - self.own) * os.sysconf("SC_CLK_TCK")
        idle, steal = gone[3] + gone[4], gone[7]
        others = max(every - idle - steal - own, 0)
        shares = tuple(100 * part / every for part in (own, others, steal, idle))
        return "of all processors' time this bench had %.0f %%, others %.0f %%, steal %.1f %%, idle %.0f %%" % shares


def first_line(*command):
    said = subprocess.run(command, capture_output=True, universal_newlines=True).stdout.splitlines()
    return said[0] if said else "none"


def machine(place):
    with open("/proc/cpuinfo", encoding="utf-8") as lines:
        model = re.search(r"^model name\s*:\s*(.*)$", lines.read(), re.MULTILINE)
    print("%d processors, of which %d may be used: %s" % (
        os.cpu_count(), len(os.sched_getaffinity(0)), model[1] if model else os.uname().machine))
    has_stm = os.path.exists(place + "/stm")
    print("%s; %s" % (first_line("rustc", "--version"), first_line("ghc", "--version") if has_stm else "no ghc"))
    before = Load()
    time.sleep(3)
    print("load average %.2f %.2f %.2f; in the three seconds before, %s" % (*os.getloadavg(), before.text()))


def grow(place, program):
    """Of each job: how long a transaction takes among so many, the shortest of some turns, which are made in turn."""
    rows = [[Row(job, count, program) for count in GROWTH] for job in COUNTS]
    for _ in range(TURNS):
        for row in rows:
            for cell in row:
                cell.turn()
    print("| Job | %s |" % " | ".join(f"{count:,}" for count in GROWTH))
    print("|---%s|" % ("|--:" * len(GROWTH)))
    for row in rows:
        print("| %s | %s |" % (row[0].job, " | ".join(str(min(cell.times)) for cell in row)), flush=True)


def main(place, word):
    if word == "--growth":
        machine(place)
        for program in programs(place)[:2]:
            print("by %s:" % program[0])
            grow(place, program)
        return
    is_quick = word == "--quick"
    rounds = 1 if is_quick else int(word)
    rows = [Row(job, QUICK if is_quick else count, program)
            for job, count in COUNTS.items() for program in programs(place)]
    machine(place)
    load = Load()
    for _ in range(rounds):
        for row in rows:
            row.turn()
    print("load average %.2f %.2f %.2f behind %d rounds, in which %s\n" % (*os.getloadavg(), rounds, load.text()))
    heads = ["Job", "By", "ns, shortest", "ns, median", "processor ns, shortest", "processor ns, median", "futex calls",
             "bytes"]
    print("| %s |" % " | ".join(heads))
    print("|---|---|--:|--:|--:|--:|--:|--:|")
    for row in rows:
        print(row.line(place, min(rounds, 3)), flush=True)


if __name__ == "__main__":
    main(*sys.argv[1:])
