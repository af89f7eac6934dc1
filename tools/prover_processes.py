"""What the prover's processes below another process work on, and the processor seconds that they have used."""
import os

TICKS = os.sysconf("SC_CLK_TCK")


def processes():
    """Gives (id, id of the parent, processor seconds) of each process that runs."""
    for name in os.listdir("/proc"):
        if name.isdigit():
            try:
                with open(f"/proc/{name}/stat") as file:
                    fields = file.read().rpartition(")")[2].split()
            except OSError:
                continue
            yield int(name), int(fields[1]), (int(fields[11]) + int(fields[12])) / TICKS


def words_of(process):
    """The words that a process was started with; none where it has ended."""
    try:
        with open(f"/proc/{process}/cmdline", "rb") as file:
            return file.read().decode(errors="replace").split("\0")
    except OSError:
        return []


def work_of(words):
    """The crate and the phase that a process works on, or None."""
    if not words or os.path.basename(words[0]) != "rattle" or "--crate-name" not in words:
        return None
    crate = words[words.index("--crate-name") + 1]
    if "--test" in words:
        return crate, "tests"
    # The gate builds each crate, and checks it over a copy for its edits. A program it checks, and then compiles.
    return crate, "edits" if words[1] == "check" else "proof"


def below(root, parents):
    """Whether a process descends from another one."""
    def descends(process):
        while process and process != root:
            process = parents.get(process, 0)
        return process == root

    return descends


class Watch:
    """The processes that were seen below a root: what each used, and its crate and phase, or None."""

    def __init__(self, root):
        self.root, self.used, self.works = root, {}, {}

    def sample(self):
        """Notes what each process below the root has used so far, and gives those that run."""
        rows = list(processes())
        descends = below(self.root, {process: parent for process, parent, _ in rows})
        rows = [(process, seconds) for process, _, seconds in rows if descends(process)]
        for process, seconds in rows:
            if self.works.get(process) is None:
                self.works[process] = work_of(words_of(process))
            self.used[process] = max(seconds, self.used.get(process, 0))
        return [process for process, _ in rows]
