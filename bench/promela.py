"""The chain of cells in Promela, Spin's language, and the time that Spin's simulation of it takes.

Each cell is a process, each gate a channel without a place, each action a message over one, and each client a further process. Spin has no
proof and no log: what it does here is a simulation at random, without output.
"""
import pathlib
import shutil
import subprocess
import sys
import time


def median(words, runs):
    """The median of the seconds that a command takes, and what it prints."""
    found = []
    for _ in range(runs):
        begin = time.monotonic()
        end = subprocess.run(words, stdin=subprocess.DEVNULL, capture_output=True, text=True, check=True)
        found.append((time.monotonic() - begin, end.stdout))
    return sorted(found)[runs // 2]


def put(number):
    """A client puts a number into the first cell."""
    return f"g0!{number}; "


def get(size):
    """A client gets a number from the last cell."""
    return f"g{size}?y; "


def model(size, clients):
    """A chain of so many cells, and clients, each of which does what it does in order."""
    gates = "".join(f"chan g{number} = [0] of {{ byte }};\n" for number in range(size + 1))
    cell = "proctype Cell(chan a; chan b) { byte x; do :: a?x -> b!x od }\n"
    rows = "".join(f"proctype Client{number}() {{ byte y;\n" + "\n".join(steps) + "\n}\n" for number, steps in enumerate(clients, 1))
    runs = [f"run Cell(g{number}, g{number + 1});" for number in range(size)] + [f"run Client{number}();" for number in range(1, len(clients) + 1)]
    return f"{gates}{cell}{rows}init {{ atomic {{\n" + "\n".join(runs) + "\n} }\n"


def seconds(place, size, clients, actions, runs, seed=7):
    """The seconds of Spin's simulation, which does as many actions; none where it isn't installed."""
    if shutil.which("spin") is None:
        return None
    path = pathlib.Path(place) / "chain.pml"
    path.write_text(model(size, clients))
    call = ["spin", f"-n{seed}", str(path)]
    sent = subprocess.run([call[0], "-s", *call[1:]], cwd=place, capture_output=True, text=True, check=True).stdout
    messages = sum(" Sent " in line for line in sent.splitlines())
    if messages != actions:
        sys.exit(f"\nSpin sent {messages} messages where {actions} are due")
    return median(call, runs)[0]
