"""Calls in which one thing fails: what `tools/fail_allocations` and `tools/fail_devices` share.

A call stands in a folder of its own, and is run with a few lines of C between the program and the C library, which let one of its allocations,
reads or writes fail, and count them.
"""
import contextlib
import os
import pathlib
import subprocess
import sys
import tempfile

TOP = pathlib.Path(__file__).resolve().parent.parent
sys.path.append(str(TOP / "conformance"))
import blocks  # noqa: E402
import judge  # noqa: E402

SECONDS = 60
# The calls: the folder and the name of a case, and the words where they are others than the case's.
CALLS = [
    ("equal", "lists", [b"check", b"spec.lotos"]),
    ("equal", "ackermann, enough", None),
    ("replay", "a process that calls itself", None),
    ("clients", "the alternating bit protocol, 1 worker", [b"run", b"spec.lotos", b"script.txt", b"--workers", b"2"]),
    ("sim", "a choice by hand", None),
]
# What both have between the program and the C library: a number of the environment, and counts that the caller finds in a file.
COUNTED = r"""
#define _GNU_SOURCE
#include <dlfcn.h>
#include <errno.h>
#include <fcntl.h>
#include <stdatomic.h>
#include <stdlib.h>
#include <string.h>
#include <sys/mman.h>
#include <sys/syscall.h>
#include <unistd.h>
static _Atomic long own[COUNTS], *made = own, number;
static const char *kind = "";
__attribute__((constructor)) static void begin(void) {
  const char *word = getenv("FAIL_NUMBER"), *path = getenv("FAIL_COUNTS"), *name = getenv("FAIL_KIND");
  int file = path ? open(path, O_RDWR) : -1;
  void *there = file < 0 ? MAP_FAILED : mmap(NULL, sizeof own, PROT_READ | PROT_WRITE, MAP_SHARED, file, 0);
  if (there != MAP_FAILED) made = there;
  if (file >= 0) syscall(SYS_close, file);
  number = word ? atol(word) : 0;
  if (name) kind = name;
}
"""


def is_beginning(part, due, judged):
    """Whether a text is a beginning of what is due; of a log that depends on the order of turns only its head is known."""
    if judged:
        return due[:14].startswith(part[:14])
    return due.startswith(part)


class Call:
    """A call in a folder of its own, and what is due of it."""

    def __init__(self, program, between, place, case, words, counts=1):
        self.program, self.between, self.place = program, between, place
        self.words, self.case, self.file, self.counts = words or case["words"], case, place / "counts", counts
        self.name, self.judged = self.words[0].decode("ascii"), "judge" in case
        self.stdin = blocks.bytes_of(None, case.get("stdin", []))
        for name, text in case["files"].items():
            (place / name).write_bytes(blocks.bytes_of(None, text))
        self.due = self.answer()
        if self.due[0] != case["status"] or self.due[2] or not (words or self.due[1] in [blocks.bytes_of(None, text) for text in case["stdout"]]):
            raise SystemExit(f"the case '{case['name']}' fails as it is")

    def answer(self, number=0, kind="", out=subprocess.PIPE):
        """The status, the output and the errors where what has this number fails in this way."""
        self.file.write_bytes(bytes(8 * self.counts))
        how = {**os.environ, "LD_PRELOAD": str(self.between), "FAIL_NUMBER": str(number), "FAIL_KIND": kind, "FAIL_COUNTS": str(self.file)}
        told = {"input": self.stdin, "stdout": out, "stderr": subprocess.PIPE, "timeout": SECONDS}
        try:
            end = subprocess.run([self.program, *self.words], cwd=self.place, env=how, check=False, **told)
        except subprocess.TimeoutExpired as late:
            return None, late.stdout or b"", b""
        return end.returncode, end.stdout or b"", end.stderr

    def counted(self):
        """What the last call counted."""
        text = self.file.read_bytes()
        return [int.from_bytes(text[at:at + 8], sys.byteorder) for at in range(0, len(text), 8)]

    def is_due(self, answer):
        """Whether an answer is the one that is due."""
        if self.judged:
            words = [word.decode("latin-1") for word in self.words]
            return answer[0] == 0 and not answer[2] and not list(judge.faults(self.program, words, self.place, self.case["judge"], answer[1]))
        return answer == self.due

    def is_cut_short(self, answer, status, behind=b""):
        """Whether an answer has this status, and what was printed is a beginning of what is due, and behind it this text."""
        text = answer[1]
        return answer[0] == status and not answer[2] and text.endswith(behind) and is_beginning(text[:len(text) - len(behind)], self.due[1], self.judged)

    def told(self, what, answer):
        """Tells of an answer that is neither due nor the fault's."""
        print(f"{what} of {b' '.join(self.words).decode('latin-1')}: status {answer[0]}, {answer[1][-200:]!r} {answer[2][:200]!r}")


@contextlib.contextmanager
def calls(program, code, counts):
    """The calls, with this code between the program and the C library."""
    with tempfile.TemporaryDirectory() as folder:
        place = pathlib.Path(folder)
        (place / "between.c").write_text(COUNTED.replace("COUNTS]", f"{counts}]") + code, encoding="ascii")
        subprocess.run(["cc", "-O1", "-shared", "-fPIC", "-o", place / "between.so", place / "between.c", "-ldl"], check=True)
        for number, (subject, name, words) in enumerate(CALLS):
            (place / str(number)).mkdir()
        yield (made(program, place / "between.so", place / str(number), *CALLS[number], counts) for number in range(len(CALLS)))


def made(program, between, place, subject, name, words, counts):
    """A call of a case."""
    cases = blocks.read((TOP / "conformance" / subject / "cases.txt").read_text(encoding="latin-1"))
    [case] = [case for case in cases if case["name"] == name]
    return Call(str(pathlib.Path(program).resolve()), between, place, case, words, counts)
