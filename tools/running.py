"""Finds the program, and runs it: the one that is named, or the one that LOTOS names, or the one that is built and proved of the sources as they stand,
or the one that is installed; where there is none of these, the quick build, of which nothing is proved. Nothing is built here: a tool that finds none
says what to run, and ends with the status 125.
"""
import hashlib
import os
import pathlib
import shutil
import subprocess
import sys
import tempfile

TOP = pathlib.Path(__file__).resolve().parent.parent
# The program of an installation, below which these tools are in share/doc/habuxelo.
INSTALLED = TOP.parent.parent.parent / "bin/lotos"
sys.path.append(str(TOP / "examples/testing"))
# The status of a tool that finds no program, which is none of its own and none of the program.
NO_PROGRAM = 125


class Lacking(Exception):
    """There is no program to run."""


def quick_build(program, kit):
    """Where the quick build of the sources as they stand is, or would be: it is built of no specs and no proofs."""
    rows = program.sources(program.TOP, kit).splitlines()
    text = "\n".join(row for row in rows if not row.startswith("file ") or "/src/" in row)
    return program.cache() / "quick" / hashlib.sha256(text.encode()).hexdigest() / "lotos"


def is_of_the_gate(program):
    """Whether the program that stands there is one of the gate, which leaves no note, and no source changed since."""
    if program.NOTE.exists() or not program.PROGRAM.exists():
        return False
    folders = [path for part in program.PROVED for path in program.TOP.glob(f"crates/*/{part}")]
    files = [TOP / "crates.txt", TOP / "HANDLES", *folders, *(path for folder in folders for path in folder.rglob("*"))]
    return max(path.stat().st_ctime for path in files) <= program.PROGRAM.stat().st_mtime


def built(program):
    """The program of a checkout, and whether it is proved; or None."""
    kits = {program.wanted_kit()}
    try:
        kits.add(program.kit())
    except program.Lacking:
        pass
    if any(program.is_current(kit) for kit in kits) or is_of_the_gate(program):
        return str(program.PROGRAM), True
    return next(((str(path), False) for kit in kits if (path := quick_build(program, kit)).exists()), None)


def executable(named):
    """The path of a program that is named, by its place or as a command."""
    path = shutil.which(named)
    if path is None:
        raise Lacking(f"there is no program {named}")
    return str(pathlib.Path(path).resolve())


def found(named=None, say=lambda text: print(text, file=sys.stderr)):
    """The path of the program. Where it is the quick build, that is said."""
    if named or os.environ.get("LOTOS"):
        return executable(named or os.environ["LOTOS"])
    try:
        import program
    except ImportError:
        return executable(str(INSTALLED))
    there = built(program)
    if there is None:
        raise Lacking("no program is built of the sources as they stand: run tools/quick (some minutes, nothing proved) or tools/build (an hour, proved), "
                      "or name one by --program")
    if not there[1]:
        say("note: this asks the quick build, of which nothing is proved")
    return there[0]


def found_or_end(tool, named=None):
    """The path of the program. Where there is none the tool of this name says so, and ends."""
    try:
        return found(named)
    except Lacking as fault:
        print(f"{tool}: {fault}", file=sys.stderr)
        sys.exit(NO_PROGRAM)


def answer(program, command, *words, seconds=600):
    """What the program writes for a command, as text, and its status."""
    end = subprocess.run([program, command, *map(str, words)], stdin=subprocess.DEVNULL, stdout=subprocess.PIPE, check=False, timeout=seconds)
    return end.stdout.decode("latin-1"), end.returncode


def judge_of(program):
    """A function that says what `check` answers of a text."""
    def check(text):
        with tempfile.TemporaryDirectory() as folder:
            path = pathlib.Path(folder, "spec.lotos")
            path.write_text(text, encoding="latin-1")
            return answer(program, "check", path)[0].rstrip("\n")
    return check


def session(program, spec, *options):
    """A session of `sim` that is talked to line by line."""
    import reference
    return reference.Reference(str(spec), *options, program=program)
