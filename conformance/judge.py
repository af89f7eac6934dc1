"""Judges the trace of a session whose log depends on the order of the clients' turns, from its text alone.

`replay` of the program says whether the log is a derivation. All else is judged here, in plain Python and without the program: that the
clients' lines are those of the script, in order, each with exactly one answer, that each client leaves once, as its last line, and that
the actions, the answers and the end are among those that the case allows.
"""
import collections
import os
import re
import subprocess

# How long a call of the program may take.
SECONDS = 60
LINE = re.compile(r"(pend|ask) (\d+)\.(\d+) (.*)")
BY = re.compile(r"act .* by (\d+)\.(\d+) rules ")
REPLY = re.compile(r"reply (\d+)\.(\d+) (.*)")
LEAVE = re.compile(r"leave (\d+)")


def wishes_of(script):
    """What each client of a script wishes, in order; the lines of a script for judging are spelled as a trace prints them."""
    wishes = collections.defaultdict(list)
    for line in script.splitlines():
        if line and not line.startswith("#"):
            client, _, wish = line.partition(": ")
            wishes[int(client)].append(wish)
    return {client: wishes[client] for client in range(1, max(wishes, default=0) + 1)}


def told(lines):
    """The clients' own lines, the offers that are answered with the words, and the actions without their trees, as the lines of a trace tell them."""
    own, answers, actions = collections.defaultdict(list), [], []
    for line in lines:
        if found := LINE.fullmatch(line):
            kind, client, number, offer = found.groups()
            own[int(client)].append((int(number), offer if kind == "pend" else f"ask {offer}"))
        elif line.startswith("act "):
            actions.append(line[4:].split(" rules ")[0])
            if found := BY.match(line):
                answers.append((int(found[1]), int(found[2]), "taken"))
        elif found := REPLY.fullmatch(line):
            answers.append((int(found[1]), int(found[2]), found[3]))
        elif line.startswith("stall "):
            answers += [(*map(int, name.split(".")), "stalled") for name in line.split()[1:]]
        elif found := LEAVE.fullmatch(line):
            own[int(found[1])].append("leave")
    return own, answers, actions


def budget_and_names(words):
    """The budget of a call as words of another one, none where it isn't given, and the names of its files."""
    budget, names, rest = [], [], iter(words[1:])
    for word in rest:
        option, is_joined, value = word.partition(b"=")
        if word == b"--":
            names += rest
        elif option.startswith(b"--"):
            value = value if is_joined else next(rest, b"")
            budget = [option, value] if option == b"--budget" else budget
        else:
            names.append(word)
    return budget, names


def replayed(program, words, place, trace):
    """What the program's `replay` prints of a trace."""
    (place / "judged.trace").write_bytes(trace)
    budget, names = budget_and_names(words)
    call = [program, "replay", *budget, "--", names[0], "judged.trace"]
    end = subprocess.run(call, cwd=place, stdin=subprocess.DEVNULL, capture_output=True, timeout=SECONDS)
    return end.stdout.decode("latin-1")


def replay_faults(program, words, place, trace):
    """What `replay` says wrongly of the trace that a `run` printed: it is a derivation, unless a term is too dear or too large for `replay`."""
    said = replayed(program, words, place, trace)
    actions = trace.count(b"\nact ")
    due = f"derivation {actions}\n"
    return [] if said == due or said.startswith(("spent ", "large ")) else [f"replay says {said!r}, due {due!r}"]


def faults(program, words, place, due, trace):
    """What is wrong with a trace, each as a sentence."""
    lines = trace.decode("latin-1").split("\n")
    if lines[0] not in ("lotos-trace 1", "lotos-trace 2") or lines[-1] or not lines[-2].startswith("end "):
        return [f"it is no trace: {trace[:80]!r}"]
    own, answers, actions = told(lines)
    wishes = wishes_of((place / os.fsdecode(words[2])).read_text(encoding="latin-1"))
    names = [(client, number) for client, all_wishes in wishes.items() for number in range(1, len(all_wishes) + 1)]
    found = []
    said = replayed(program, words, place, trace)
    if said != f"derivation {len(actions)}\n":
        found.append(f"replay says {said!r}")
    if own != {client: [*enumerate(all_wishes, 1), "leave"] for client, all_wishes in wishes.items()}:
        found.append("the clients' lines aren't those of the script")
    if sorted((client, number) for client, number, _ in answers) != names:
        found.append("not each offer has exactly one answer")
    if "actions" in due and actions not in due["actions"]:
        found.append(f"the actions are {actions}")
    if "in any order" in due and sorted(actions) != sorted(due["in any order"]):
        found.append(f"the actions are, in some order, {sorted(actions)}")
    words_of = {f"{client}.{number}": word for client, number, word in answers}
    for name, allowed in due.get("answer", {}).items():
        if words_of.get(name) not in allowed:
            found.append(f"the answer to {name} is {words_of.get(name)!r}")
    if "ends" in due and lines[-2][4:] not in due["ends"]:
        found.append(f"the end is {lines[-2][4:]}")
    return found
