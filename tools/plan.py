"""In which order the crates of a first build are proved, with how many jobs each, and how long that takes: what
tools/build.py goes by."""
import copy

# The share of a proof that one process does alone, however many jobs it has.
ALONE = 0.25
# What each further job takes of memory, beside the first, with which it shares much.
BESIDE = 0.5


class Task:
    """A crate that is to be proved."""

    def __init__(self, crate, weight):
        self.crate, self.name = crate, crate.name
        self.below = {it.name for it in crate.below()}
        # Seconds of one processor, bytes of memory at one job, and bytes that it leaves on the disk.
        self.seconds, self.memory, self.room = weight
        # The seconds of the longest chain of crates that begins with this one.
        self.chain = 0
        self.jobs, self.begun = 0, 0

    def time(self, jobs):
        """The seconds from its begin to its end."""
        return self.seconds * (ALONE + (1 - ALONE) / jobs)

    def memory_of(self, jobs):
        return int(self.memory * (1 + BESIDE * (jobs - 1)))

    def share_left(self, now, pace):
        """The share of it that is still to be done, where so many times what the weights say is needed."""
        return 1 - min(0.95, (now - self.begun) / (pace * self.time(self.jobs))) if self.jobs else 1


class Plan:
    """The crates that aren't proved yet, and the order of their proofs."""

    def __init__(self, tasks, processors):
        self.left = {it.name: it for it in tasks}
        self.running, self.processors = {}, processors
        self.measure(0, 1)

    def measure(self, now, pace):
        """The seconds that are left, as the weights have it: of the longest chain, or of all on all processors."""
        tasks = [*self.running.values(), *self.left.values()]
        for it in reversed(tasks):
            above = max((other.chain for other in tasks if it.name in other.below), default=0)
            it.chain = above + it.time(self.processors) * it.share_left(now, pace)
        work = sum(it.seconds * it.share_left(now, pace) for it in tasks) / self.processors
        return max([work, *(it.chain for it in tasks)])

    def ready(self):
        """The crates over proved ones, that with the longest chain first."""
        behind = {*self.left, *self.running}
        return sorted((it for it in self.left.values() if behind.isdisjoint(it.below)), key=lambda it: -it.chain)

    def before(self, task):
        """How many at work have a longer chain: the longest decides when all is proved."""
        return sum(task.chain <= it.chain for it in self.running.values())

    def jobs_of(self, task):
        """How many jobs to begin it with: none where all processors are at work for longer chains, or for one proof
        more than there are of them, and else so many that all are busy where a proof comes to a part that one process
        does alone. What isn't first gives way."""
        if self.before(task) >= self.processors or len(self.running) > self.processors:
            return 0
        return (self.processors + 1) // 2 if self.before(task) else self.processors

    def begin(self, task, jobs, now):
        task.jobs, task.begun = jobs, now
        self.running[task.name] = self.left.pop(task.name)

    def end(self, task):
        del self.running[task.name]


def ends_of(tasks, processors):
    """When each of these proofs ends, in seconds from the begin of the first, if each takes what its weight says. Of
    those side by side, the one with the longest chain has as many processors as it can use, then the next one."""
    plan, now, ends = Plan([copy.copy(it) for it in tasks], processors), 0.0, {}
    to_do = {it.name: it.seconds for it in tasks}
    while plan.left or plan.running:
        for task in plan.ready():
            jobs = plan.jobs_of(task)
            if jobs:
                plan.begin(task, jobs, now)
        speeds, free = {}, processors
        for task in sorted(plan.running.values(), key=lambda it: -it.chain):
            speeds[task.name] = min(task.seconds / task.time(task.jobs), free)
            free -= speeds[task.name]
        passed = min(to_do[name] / speed for name, speed in speeds.items() if speed)
        now += passed
        for name, speed in speeds.items():
            to_do[name] -= passed * speed
        for task in [it for it in plan.running.values() if to_do[it.name] < 0.001]:
            ends[task.name] = now
            plan.end(task)
    return ends


class Forecast:
    """How long all proofs take, by the weights and by the pace so far."""

    # What the weights say counts as much as so many seconds of proofs.
    TRUSTED = 30

    def __init__(self, tasks, processors):
        self.expected = ends_of(tasks, processors)
        self.whole = max(self.expected.values())
        # When each proof that has ended did, in seconds from the begin.
        self.ended = {}

    def end(self, name, now):
        self.ended[name] = now

    def pace(self, now):
        """How many times longer it takes than the weights say: for the proofs that have ended, or more if the next one
        is overdue."""
        should = sum(self.expected[name] for name in self.ended)
        pace = (sum(self.ended.values()) + self.TRUSTED) / (should + self.TRUSTED)
        awaited = [end for name, end in self.expected.items() if name not in self.ended]
        return max(pace, now / min(awaited)) if awaited else pace

    def left(self, now):
        """The seconds that are left."""
        return max(self.whole * self.pace(now) - now, 0)
