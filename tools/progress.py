"""How far a build is: read from what `rt ci` writes and from the prover's processes, and shown on standard error.

`tools/proof_seconds.txt` has the processor seconds that the proof of each crate took when they were last measured.
"""
import os
import pathlib
import re
import shutil
import statistics
import sys
import time

import prover_processes

SECONDS = pathlib.Path(__file__).resolve().parent / "proof_seconds.txt"
# How often a line is written where standard error is no terminal.
PAUSE = 60
DONE = re.compile(r"rt: (\w+) (proved|is kept: )")


def noted_seconds():
    """The seconds of the table, by crate."""
    rows = [line.split() for line in SECONDS.read_text(encoding="utf-8").splitlines() if not line.startswith("#")]
    return {name: float(seconds) for name, seconds in rows}


def expected_seconds(names):
    """The processor seconds that each crate's proof is expected to take; where none are noted, those of a usual crate."""
    noted = noted_seconds()
    usual = statistics.median(noted.values())
    return {name: noted.get(name, usual) for name in names}


def minutes(seconds):
    """A time in words."""
    return f"{seconds / 60:.0f} min" if seconds >= 60 else f"{seconds:.0f} s"


class Minutes:
    """How many proofs are at work, as a line in a file for each minute, which says why where a processor has none."""

    def __init__(self, path, processors):
        self.file, self.processors, self.looks, self.number = open(path, "w", encoding="utf-8"), processors, [], 0

    def note(self, seconds, at_work, ready):
        """Notes a look at the build: how many proofs are at work, and how many crates could be proved beside them."""
        if seconds // 60 > self.number:
            self.end()
            self.number = int(seconds // 60)
        self.looks.append((at_work, ready))

    def line(self):
        """What is said of the looks of this minute."""
        text = f"minute {self.number}: {statistics.mean(at_work for at_work, _ in self.looks):.1f} proofs at work"
        fewer = [(at_work, ready) for at_work, ready in self.looks if at_work < self.processors]
        waits = sum(ready > 0 for _, ready in fewer)
        if fewer:
            text += f"; fewer than {self.processors} in {len(fewer)} of {len(self.looks)} looks: in {waits} `rt` had a crate ready or was planning, "
            text += f"in {len(fewer) - waits} all other crates stood on those at work"
        return text

    def end(self):
        """Writes the line of this minute."""
        if self.looks:
            print(self.line(), file=self.file, flush=True)
            self.looks = []


class Progress:
    """The crates of a build, in order, with what they use; which are done, and which are at work."""

    def __init__(self, process, log, crates):
        self.crates, self.log, self.begun = crates, open(log, encoding="utf-8", errors="replace"), time.time()
        self.watch = prover_processes.Watch(process)
        self.expected = expected_seconds(crates)
        self.done, self.proved, self.at_work, self.shown, self.rest = set(), set(), {}, 0, ""
        self.by_minute = Minutes(log.parent / "build.minutes", len(os.sched_getaffinity(0)))
        self.on_terminal = sys.stderr.isatty()
        self.write(f"lotos: the program is built first, which proves {len(crates)} crates, all but those that this machine has proved before;")
        self.write("lotos: crates/lotos/out/build.log takes what is said of each, and build.minutes how many are at work")

    def write(self, line):
        print(line, file=sys.stderr, flush=True)

    def read(self):
        """Reads which crates are done."""
        *lines, self.rest = (self.rest + self.log.read()).split("\n")
        for line in lines:
            found = DONE.match(line)
            if found and found[1] in self.crates:
                self.done.add(found[1])
                if found[2] == "proved":
                    self.proved.add(found[1])

    def look(self):
        """Reads what is new, and shows it where it is time to."""
        self.read()
        self.at_work = {}
        for process in self.watch.sample():
            work = self.watch.works[process]
            if work and work[0] not in self.done:
                self.at_work[work[0]] = self.watch.used[process]
        self.by_minute.note(time.time() - self.begun, len(self.at_work), len(self.ready()))
        if self.on_terminal:
            width = shutil.get_terminal_size().columns
            print(f"\r\033[K{self.line()[:width - 1]}", end="", file=sys.stderr, flush=True)
        elif time.time() - self.shown >= PAUSE:
            self.shown = time.time()
            self.write(self.line())

    def ready(self):
        """The crates that could be proved now, and aren't at work: all that they use is proved."""
        return [name for name, uses in self.crates.items() if name not in self.done | self.at_work.keys() and self.done.issuperset(uses)]

    def end(self):
        """Reads the last of it, and takes the line off the terminal."""
        self.read()
        self.by_minute.end()
        if self.on_terminal:
            print("\r\033[K", end="", file=sys.stderr, flush=True)

    def counts(self):
        """How many crates are done, and how long it took."""
        before = len(self.done) - len(self.proved)
        return f"{len(self.done)} of {len(self.crates)} crates are proved, {before} of them before, in {minutes(time.time() - self.begun)}"

    def line(self):
        """How far the build is, in one line."""
        work = ", ".join(sorted(self.at_work)) or ("the program" if len(self.done) == len(self.crates) else "no proof")
        parts = [f"lotos: {len(self.done)} of {len(self.crates)} crates, {minutes(time.time() - self.begun)} so far"]
        parts.append(f"about {minutes(self.left())} left" if self.done or self.at_work else "planning")
        return f"{'; '.join(parts)}; at work: {work}"

    def left(self):
        """The seconds that are likely left: the work that remains on all processors, or the longest chain of crates, whichever takes longer."""
        used = {}
        for process, work in self.watch.works.items():
            if work:
                used[work[0]] = max(used.get(work[0], 0), self.watch.used[process])
        measured = [name for name in self.proved if name in used]
        due = sum(self.expected[name] for name in measured)
        # How many times as long as noted the proofs take here.
        slowness = sum(used[name] for name in measured) / due if due >= 60 else 1
        chains, whole = {}, 0
        for name, uses in self.crates.items():
            rest = 0 if name in self.done else max(self.expected[name] * slowness - self.at_work.get(name, 0), 5)
            chains[name] = rest + max((chains[use] for use in uses), default=0)
            whole += rest
        return max(whole / len(os.sched_getaffinity(0)), *chains.values())
