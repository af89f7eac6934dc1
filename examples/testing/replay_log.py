#!/usr/bin/env python3
"""Checks the log of a buffer for two items by `lotos replay`: each line becomes the step of the specification that it stands for.

usage: replay_log.py [--print] LOG

With --print the trace is printed, and no program is run. The program is that of reference.py. The status is 1 where the log isn't one of the
specification.
"""
import pathlib
import subprocess
import sys
import tempfile

from reference import lotos

SPEC = "examples/two_place_buffer/spec.lotos"
# By which rules the specification does what a line of a log tells. `{0}` is the item.
RULES = {"put": "pass(parl(call(rel(pre[{0}]))))", "move": "hide(both(rel(pre),call(rel(pre[{0}]))))", "get": "pass(parr(rel(pre)))"}
# Who puts is client 1, and who gets is client 2.
CLIENTS = {"put": 1, "get": 2}


def number(text):
    """A number as a term."""
    return "Succ(" * int(text) + "0" + ")" * int(text)


def lines_of(event, item, offers):
    """The lines of a trace for a line of a log."""
    rules = RULES[event].format(item)
    if event not in CLIENTS:
        return [f"act i rules {rules}"]
    client = CLIENTS[event]
    offers[client] += 1
    name = f"{client}.{offers[client]}"
    return [f"pend {name} {event} !{item}", f"act {event} !{item} by {name} rules {rules}"]


def trace_of(log):
    """The lines of a trace for a log, each with the line of the log that it is for."""
    offers, lines = {1: 0, 2: 0}, [("lotos-trace 1", None)]
    for at, line in enumerate(log, 1):
        event, item = line.split()
        lines += [(text, at) for text in lines_of(event, number(item), offers)]
    return lines + [(f"leave {client}", None) for client in offers if offers[client]] + [("end waiting", None)]


def replayed(lines):
    """What `replay` says of a trace."""
    with tempfile.NamedTemporaryFile("w", suffix=".trace", encoding="ascii") as trace:
        trace.write("".join(text + "\n" for text, _ in lines))
        trace.flush()
        return subprocess.run([lotos(), "replay", SPEC, trace.name], capture_output=True, text=True, check=False).stdout.strip()


def main():
    log = pathlib.Path(sys.argv[-1]).read_text(encoding="ascii").splitlines()
    lines = trace_of(log)
    if "--print" in sys.argv:
        print(*(text for text, _ in lines), sep="\n")
        return 0
    said = replayed(lines)
    print(said)
    if not said.startswith("not a derivation "):
        return 0 if said.startswith("derivation ") else 1
    text, at = lines[int(said.rsplit(" ", 1)[1]) - 1]
    print(f"line {at} of the log: {log[at - 1]}", f"it would be: {text}", sep="\n")
    return 1


sys.exit(main())
