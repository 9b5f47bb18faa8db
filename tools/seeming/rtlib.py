"""Stands for the toolchain's module of this name in tools/first_use.py: it has what tools/build.py uses of it, and
proves nothing. A proof sleeps for SEEMING_SECONDS. The file that SEEMING_LOG names gets a line as each begins and ends:
its crate, its jobs, and whether it leaves statements or its work. SEEMING_FAULT is the name of a crate whose proof
fails, with the status SEEMING_STATUS, and prints SEEMING_SAYS. SEEMING_FLAGS are those that the toolchain's build has.
"""
import os
import subprocess

GIVEN = os.environ
# What proves a library, and a flag that it has.
RATTLE = "rattle"
FLAGS = GIVEN.get("SEEMING_FLAGS", "--statements")
SECONDS = float(GIVEN.get("SEEMING_SECONDS", "0.02"))
FREE = 1_000_000_000_000


def stop(why):
    raise SystemExit(why)


def guarded():
    return []


def cores():
    return 4


def fits(*needs):
    return sum(needs) <= FREE


def lock(crates):
    return [os.open(it.folder, os.O_RDONLY) for it in crates]


def note(line):
    with open(GIVEN["SEEMING_LOG"], "a", encoding="utf-8") as log:
        log.write(line + "\n")


def help_of(verb):
    return FLAGS if verb == "build" else ""


class Crate:
    def __init__(self, name, folder, deps):
        self.name, self.folder, self.deps, self.out = name, folder, deps, None
        self.rlib = f"{folder}/out/rlib/{name}.rlib"

    def below(self):
        found = []
        for it in self.deps:
            found += [other for other in [*it.below(), it] if other not in found]
        return found

    def need(self):
        return 1_000_000_000

    def has_kept(self):
        return os.path.isdir(self.folder + "/out/incremental")

    def stamp(self):
        return self.name

    def is_built(self):
        return os.path.exists(self.folder + "/out/rlib/stamp")

    def words(self, flags, keeps):
        return ["--crate-name", self.name, *flags]

    def call(self, *words):
        wanted = [RATTLE, "build", *self.words(["--jobs", words[5]], False), "--statements", "-o", self.rlib]
        if [*words] != wanted:
            raise SystemExit(f"called {words}")
        return self.prove(words[5], "statements")

    def build_rlib(self, flags, anew):
        os.makedirs(self.folder + "/out/incremental", exist_ok=True)
        os.makedirs(self.folder + "/out/rlib", exist_ok=True)
        status = self.prove(flags[1], "work")
        if not status:
            with open(self.folder + "/out/rlib/stamp", "w", encoding="utf-8") as stamp:
                stamp.write(self.stamp())
        return status

    def prove(self, jobs, leaves):
        note("begin %s %s %s" % (self.name, jobs, leaves))
        subprocess.run(["sleep", str(SECONDS)], check=True)
        if GIVEN.get("SEEMING_FAULT") == self.name:
            print(GIVEN["SEEMING_SAYS"], file=self.out, flush=True)
            return int(GIVEN.get("SEEMING_STATUS", "1"))
        note("end %s" % self.name)
        return 0


def crates_below(top):
    root = os.path.dirname(top)
    made = {}
    with open(root + "/crates.txt", encoding="utf-8") as lines:
        rows = [line.partition("#")[0].partition(":")[::2] for line in lines]
    uses = {words.split()[0]: deps.split() for words, deps in rows if words.strip()}

    def crate(name):
        if name not in made:
            below = [crate(it) for it in uses[name] if it in uses]
            made[name] = Crate(name, root + "/crates/" + name, below)
        return made[name]

    for name in uses:
        crate(name)
    return [*made.values()]
