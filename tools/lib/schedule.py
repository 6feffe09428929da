"""In which order the crates of a build are proved: those first from which the longest chain leads to the program.

A crate is begun once all below it are done, as soon as there is a processor and the memory that it takes; one that nothing
else is ready beside gets the idle processors. The same rules make a build's steps and its model, which tells the time to go.
"""

import dataclasses
import os

# what a second job of a check adds of the memory of the first, and how much of a check can't be shared among jobs
MORE_MEMORY = 0.6
ALONE_SECONDS, ALONE_SHARE = 5.0, 0.05
# a job more is worth less than one, since jobs share what they prove
JOB_WORTH = 0.8
MOST_JOBS = 4


@dataclasses.dataclass
class Weight:
    seconds: float  # of one processor
    memory: float  # of the largest process, in MB


def read_weights(path):
    """The weights that a file has; none if there is no such file."""
    try:
        with open(path, encoding="utf-8") as file:
            rows = [line.split("\t") for line in file.read().splitlines()[1:]]
    except FileNotFoundError:
        return {}
    return {name: Weight(float(seconds), float(memory)) for name, seconds, memory in rows}


def write_weights(path, weights):
    rows = ["crate\tseconds\tMB\n"]
    rows += [f"{name}\t{it.seconds:.0f}\t{it.memory:.0f}\n" for name, it in sorted(weights.items())]
    with open(path + ".new", "w", encoding="utf-8") as file:
        file.writelines(rows)
    os.replace(path + ".new", path)


def size_of(folder):
    """The bytes of a crate's code and proofs."""
    found = 0
    for part in ("src", "specs", "proofs"):
        for at, _, names in os.walk(os.path.join(folder, part)):
            found += sum(os.path.getsize(os.path.join(at, it)) for it in names)
    return found


def weigh(names, known, size):
    """The weights of these crates: the known ones, and for the others what crates of their size take."""
    sizes = {it: size(it) for it in names}
    mean = [it for it in names if it in known and sizes[it]]
    per_byte = sum(known[it].seconds for it in mean) / sum(sizes[it] for it in mean) if mean else 0.001
    memory = max([known[it].memory for it in mean], default=2000.0)
    return {it: known.get(it) or Weight(max(1.0, sizes[it] * per_byte), memory) for it in names}


def needed(below, goal):
    """The crates that a goal stands on, and itself, each after those below it."""
    found = []

    def visit(name):
        for it in below[name]:
            if it in below and it not in found:
                visit(it)
        if name not in found:
            found.append(name)

    visit(goal)
    return found


class Plan:
    """Crates to build, what each stands on among them, and their weights."""

    def __init__(self, below, goal, weights):
        self.names = needed(below, goal)
        self.below = {it: [other for other in below[it] if other in self.names] for it in self.names}
        self.weights = weights
        self.above = {it: [other for other in self.names if it in self.below[other]] for it in self.names}
        self.chain = {}
        for name in reversed(self.names):
            longest = max([self.chain[it] for it in self.above[name]], default=0.0)
            self.chain[name] = weights[name].seconds + longest

    def memory(self, name, jobs=1):
        return self.weights[name].memory * (1 + MORE_MEMORY * (jobs - 1))

    def seconds(self, name, jobs=1):
        """What a crate takes by the clock with so many jobs."""
        whole = self.weights[name].seconds
        alone = min(whole, ALONE_SECONDS + ALONE_SHARE * whole)
        return alone + (whole - alone) / (1 + JOB_WORTH * (jobs - 1))

    def begin(self, done, running, processors, memory):
        """The crates to begin now, each with its jobs. `running` has the jobs of those that are being built."""
        waiting = [it for it in self.names if it not in done and it not in running]
        ready = [it for it in waiting if all(other in done for other in self.below[it])]
        ready.sort(key=lambda it: -self.chain[it])
        used = sum(self.memory(it, jobs) for it, jobs in running.items())
        begun = {}
        for at, name in enumerate(ready):
            if len(running) + len(begun) >= processors:
                break
            if (running or begun) and used + self.memory(name) > memory:
                # what comes later in the order may be smaller, and fit
                continue
            idle = processors - sum(running.values()) - sum(begun.values())
            jobs = max(1, min(MOST_JOBS, idle // (len(ready) - at)))
            while jobs > 1 and used + self.memory(name, jobs) > memory:
                jobs -= 1
            begun[name] = jobs
            used += self.memory(name, jobs)
        return begun

    def to_go(self, processors, memory, done=(), running=None, pace=1.0):
        """The seconds that the rest takes by the weights; `running` has for each crate its jobs and the seconds that it has taken."""
        done, now, ends, jobs_of = set(done), 0.0, {}, {}
        for name, (jobs, taken) in (running or {}).items():
            jobs_of[name] = jobs
            ends[name] = max(self.seconds(name, jobs) * pace - taken, 1.0)
        while len(done) < len(self.names):
            for name, jobs in self.begin(done, jobs_of, processors, memory).items():
                jobs_of[name] = jobs
                ends[name] = now + self.seconds(name, jobs) * pace
            first = min(ends, key=ends.get)
            now = ends.pop(first)
            del jobs_of[first]
            done.add(first)
        return now
