"""Calls of the tools, and what is due of each: a file begins with `$ ` and the call, and goes on with what is printed and the status."""
import subprocess
import sys

import program

DUE = program.TOP / "tools/due"


def called(words, top=program.TOP):
    """What a tool prints below this folder, and its status."""
    end = subprocess.run([sys.executable, *words], cwd=top, stdin=subprocess.DEVNULL, capture_output=True, text=True, timeout=120)
    return f"{end.stdout}{end.stderr}status {end.returncode}\n"


def call_of(path):
    """The call of a file, and what is due of it."""
    head, _, due = path.read_text(encoding="utf-8").partition("\n")
    return head.removeprefix("$ "), due


def faults(path, top=program.TOP):
    """What is wrong with a call."""
    call, due = call_of(path)
    got = called(call.split(), top)
    if got != due:
        pairs = zip((due + "\n").split("\n"), (got + "\n").split("\n"))
        yield next((f"line {at} is {there!r}, and {wanted!r} is due" for at, (wanted, there) in enumerate(pairs, 2) if wanted != there), "another length")


def told(results):
    """Prints a line for each test that failed, and the numbers; gives the status."""
    results = list(results)
    for name, found in results:
        if found:
            print(f"FAILED {name}: {'; '.join(found)}")
    failed = sum(bool(found) for _, found in results)
    print(f"{len(results) - failed} passed, {failed} failed")
    return 1 if failed or not results else 0
