"""The program: what it is built from, whether the one that stands there is built of that, and its build.

It is built in a folder of its own, outside the checkout, which gets a copy of the crates that the program stands on and nothing
else. There `rt ci` proves each crate once, over the libraries that it built before. What it has proved it keeps beside the kit, where
each later `rt ci` on this machine finds it, also the gate of a checkout; and what the gate has proved is found here.
"""
import contextlib
import fcntl
import hashlib
import os
import pathlib
import re
import shutil
import signal
import subprocess
import sys
import time

import progress

TOP = pathlib.Path(__file__).resolve().parent.parent
OUT = TOP / "crates/lotos/out"
PROGRAM = OUT / "lotos"
# What the program was built from, and its own checksum. Its time is that of the moment before the sources were read.
NOTE = OUT / "lotos.from"
LOG = OUT / "build.log"
# The toolchain's `rt`, which plans faster through it.
RT = TOP / "tools/rt"
# The parts of a crate that its proof reads, and what a program is run on when it is built.
PROVED = ["src", "specs", "proofs"]
RUN_ON = ["stdin", "stdout", "args", "status", "data"]
# What a build wants, in megabytes. It keeps some 5,000 on the disk, and where fewer than 5,000 are free `rt ci` keeps nothing more.
MEMORY, DISK = 4000, 10_000
# How many built programs are kept.
MOST = 8


class Lacking(Exception):
    """What a build wants and doesn't have, or why it failed, as one line."""


def say(text):
    print(f"lotos: {text}", file=sys.stderr, flush=True)


def sum_of(path):
    """The SHA-256 of a file, or None where it can't be read."""
    try:
        return hashlib.sha256(path.read_bytes()).hexdigest()
    except OSError:
        return None


# What the program is built from.


def crate_lines(top):
    """The lines of crates.txt, by crate: the line itself, and the crates and libraries that it names."""
    lines = {}
    for line in (top / "crates.txt").read_text(encoding="utf-8").splitlines():
        head, _, uses = line.partition("#")[0].partition(":")
        if head.strip():
            lines[head.split()[0]] = line, uses.split()
    return lines


def stands_on(lines, *names):
    """The crates that the program, or crates of these names, stand on, themselves among them, with what they use of each other; each behind
    those that it uses."""
    found = {}

    def visit(name):
        if name in lines and name not in found:
            for use in lines[name][1]:
                visit(use)
            found[name] = [use for use in lines[name][1] if use in lines]

    for name in names or ["lotos"]:
        visit(name)
    return found


def files_below(folder):
    """All files below a folder, in order."""
    return sorted(path for path in folder.rglob("*") if path.is_file() or path.is_symlink())


def sources(top, kit):
    """A text that says what the program is built from: the kit, the lines of crates.txt, and the checksums of the files."""
    lines = crate_lines(top)
    names = sorted(stands_on(lines))
    files = [top / "HANDLES"]
    files += [path for name in names for part in PROVED for path in files_below(top / "crates" / name / part)]
    rows = [f"kit {kit}"] + [f"crate {lines[name][0]}" for name in names]
    rows += [f"file {sum_of(path)}  {path.relative_to(top)}" for path in files]
    return "\n".join(rows) + "\n"


def copy_sources(top, to):
    """Copies the crates that the program stands on, and their lines of crates.txt, to a fresh folder."""
    shutil.rmtree(to, ignore_errors=True)
    # The folder is the top of a repository, whatever it lies in.
    (to / ".git").mkdir(parents=True)
    lines = crate_lines(top)
    names = stands_on(lines)
    (to / "crates.txt").write_text("".join(f"{lines[name][0]}\n" for name in lines if name in names), encoding="utf-8")
    shutil.copyfile(top / "HANDLES", to / "HANDLES")
    for name in names:
        for part in PROVED:
            if (top / "crates" / name / part).is_dir():
                shutil.copytree(top / "crates" / name / part, to / "crates" / name / part, symlinks=True)
    for part in RUN_ON:
        path = top / "crates/lotos" / part
        if path.is_dir():
            shutil.copytree(path, to / "crates/lotos" / part, symlinks=True)
        elif path.exists():
            shutil.copyfile(path, to / "crates/lotos" / part)
    return names


# What a build wants.


def wanted_kit():
    """The line of the kit with which the program is proved, as the README names it."""
    return re.search(r"^Proved with `([^`]+)`", (TOP / "README.md").read_text(encoding="utf-8"), re.M)[1]


def logic_of(line):
    """What a kit's line says of its logic."""
    return line.partition(" ")[2]


def kit():
    """The kit's line, which names the logic that is wanted. Any kit of that logic proves the program anew."""
    wanted = wanted_kit()
    if not shutil.which("rt"):
        raise Lacking(f"there is no command `rt` on the PATH: the toolchain {wanted} is wanted")
    found = subprocess.run(["rt", "version"], capture_output=True, text=True, check=False).stdout.strip()
    if logic_of(found) != logic_of(wanted):
        raise Lacking(f"`rt version` says '{found}', and '{wanted}' is wanted, with which the program is proved, or another kit of its logic")
    return found


def number_in(path, pattern):
    """The first number that a pattern finds in a file, or None."""
    try:
        found = re.search(pattern, pathlib.Path(path).read_text(encoding="utf-8"), re.M)
    except OSError:
        return None
    return int(found[1]) if found else None


def free_memory():
    """The megabytes of memory that may still be used, under the limit of the control group too."""
    free = [(number_in("/proc/meminfo", r"^MemAvailable:\s+(\d+)") or 0) * 1024]
    limit, held = number_in("/sys/fs/cgroup/memory.max", r"^(\d+)"), number_in("/sys/fs/cgroup/memory.stat", r"^anon (\d+)")
    if limit and held is not None:
        free.append(limit - held)
    return min(free) // 1_000_000


def keeps():
    """Whether this kit's `rt ci` says that it keeps what it has proved, beside the kit."""
    return "is kept beside the kit" in " ".join(subprocess.run(["rt", "help"], capture_output=True, text=True, check=False).stderr.split())


def store():
    """The folder in which `rt ci` keeps what it has proved, or where it makes that: beside the kit."""
    page = subprocess.run(["rt", "doc"], capture_output=True, text=True, check=False).stdout.strip()
    beside = pathlib.Path(page).resolve().parent.parent
    return beside / "rattle-kept" if (beside / "rattle-kept").is_dir() else beside


def see_premises(memory, disk, folders):
    """Sees that there is enough memory, and enough disk in some folders, before anything long begins."""
    for folder in folders:
        free = shutil.disk_usage(folder).free // 1_000_000
        if free < disk:
            raise Lacking(f"the disk has {free:,} MB free at {folder}, and {disk:,} MB are wanted for a build")
    free = free_memory()
    if free < memory:
        raise Lacking(f"{free:,} MB of memory are free, and {memory:,} MB are wanted for a build")


def see_all_premises(place):
    """Sees that a build with its proofs has what it wants, and says where one that is broken off begins anew."""
    if not keeps():
        see_premises(MEMORY, DISK, [place])
        say("note: this kit keeps nothing of what it proves, so a build that is broken off begins anew, and takes nothing over from another one")
        return
    kept = store()
    see_premises(MEMORY, DISK, [place, kept])
    if not os.access(kept, os.W_OK):
        say(f"note: {kept} can't be written, so nothing that is proved is kept, and a build that is broken off begins anew")


# The build.


def cache():
    """The folder, outside each checkout, in which builds are made and built programs are kept."""
    home = os.environ.get("XDG_CACHE_HOME") or os.path.expanduser("~/.cache")
    return pathlib.Path(home, "habuxelo")


def own_place(kind):
    """The folder of this checkout alone for builds of a kind."""
    place = cache() / kind / hashlib.sha256(str(TOP).encode()).hexdigest()[:16]
    place.mkdir(parents=True, exist_ok=True)
    return place


def is_current(kit):
    """Whether the program that stands there is noted to be built of the sources as they stand."""
    before = time.time() - 1
    try:
        noted = NOTE.read_text(encoding="utf-8")
        if noted != f"program {sum_of(PROGRAM)}\n{sources(TOP, kit)}":
            return False
        # From now on only what changes later is looked at.
        for path in PROGRAM, NOTE:
            os.utime(path, (before, before))
    except OSError:
        return False
    return os.access(PROGRAM, os.X_OK)


def kept_for(text):
    """The folder in which the program that is built from this text is kept."""
    return cache() / "programs" / hashlib.sha256(text.encode()).hexdigest()


def put(made, to):
    """Puts a built program and its note into a folder, each whole or not at all, the note last."""
    to.mkdir(parents=True, exist_ok=True)
    for name in PROGRAM.name, NOTE.name:
        part = to / f"{name}.{os.getpid()}"
        shutil.copyfile(made / name, part)
        part.chmod(0o755 if name == PROGRAM.name else 0o644)
        os.replace(part, to / name)


def is_whole(made, text):
    """Whether a folder has a program that was built from this text, and its note."""
    try:
        return (made / NOTE.name).read_text(encoding="utf-8") == f"program {sum_of(made / PROGRAM.name)}\n{text}"
    except OSError:
        return False


def drop_old(programs):
    """Removes the built programs that weren't used for longest, but for a few."""
    for old in sorted(programs.iterdir(), key=lambda it: it.stat().st_mtime)[:-MOST]:
        shutil.rmtree(old, ignore_errors=True)


def prove(folder, names, lock):
    """Proves the copied crates and builds the program, and shows how far it is."""
    with open(LOG, "w", encoding="utf-8") as log:
        # Where this process is killed, rt goes on, and holds the lock as long.
        rt = subprocess.Popen([RT, "ci"], cwd=folder, stdin=subprocess.DEVNULL, stdout=log, stderr=log, pass_fds=[lock.fileno()])
    shown = progress.Progress(rt.pid, LOG, names)
    try:
        while rt.poll() is None:
            shown.look()
            time.sleep(1)
    except BaseException:
        rt.terminate()
        rt.wait()
        shown.end()
        say(f"broken off; {shown.counts()}{', and the next build goes on from there' if keeps() else ''}")
        raise
    shown.end()
    if rt.returncode != 0 or not (folder / "crates/lotos/out/lotos").is_file():
        lines = LOG.read_text(encoding="utf-8", errors="replace").splitlines()
        for line in lines[-20:]:
            print(line, file=sys.stderr)
        how = f"rt was ended by signal {-rt.returncode}" if rt.returncode < 0 else "crates/lotos/out/build.log says why"
        raise Lacking(f"the program could not be built: {how}")
    say(f"built; {shown.counts()}")


def make(kit, place, lock):
    """Builds the program of the sources as they stand now, or takes the one that was built of the same before."""
    folder = place / "repository"
    OUT.mkdir(parents=True, exist_ok=True)
    text = sources(TOP, kit)
    if not is_whole(kept_for(text), text):
        see_all_premises(place)
        names = copy_sources(TOP, folder)
        # What is noted is what was copied, whatever changed meanwhile.
        text = sources(folder, kit)
        prove(folder, names, lock)
        built = folder / "crates/lotos/out"
        (built / NOTE.name).write_text(f"program {sum_of(built / PROGRAM.name)}\n{text}", encoding="utf-8")
        put(built, kept_for(text))
        shutil.rmtree(folder, ignore_errors=True)
        drop_old(cache() / "programs")
    put(kept_for(text), OUT)
    # It was used last now.
    os.utime(kept_for(text))


@contextlib.contextmanager
def alone(place):
    """Waits while another process builds in a folder, and keeps others out."""
    with open(place / "lock", "w", encoding="utf-8") as lock:
        try:
            fcntl.flock(lock, fcntl.LOCK_EX | fcntl.LOCK_NB)
        except BlockingIOError:
            say("another process builds the program of this checkout; waiting for it")
            fcntl.flock(lock, fcntl.LOCK_EX)
        yield lock


def build():
    """Sees that the program is built of the sources as they stand, also where these change meanwhile. Returns a status."""
    signal.signal(signal.SIGTERM, lambda number, _: sys.exit(128 + number))
    try:
        line = kit()
        place = own_place("builds")
        with alone(place) as lock:
            while not is_current(line):
                make(line, place, lock)
        return 0
    except (Lacking, OSError, shutil.Error) as fault:
        say(fault)
        return 125
    except KeyboardInterrupt:
        return 128 + signal.SIGINT
