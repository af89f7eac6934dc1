#!/usr/bin/env python3
"""Tests a buffer for two items against its specification: what the buffer does is offered to `lotos sim`, which says whether it may.

usage: against_sim.py [sound|hasty|forgetful] [SEED]

The program is that of reference.py. The status is 1 where the buffer differs from the specification.
"""
import random
import sys

import buffer
import reference

SPEC = "examples/two_place_buffer/spec.lotos"
STEPS = 100


def number(value):
    """A number as a term."""
    return "Succ(" * value + "0" + ")" * value


def stimulus(draw, tested):
    """Does something to the buffer: what it did, the offer that tells of it, and whether the specification must take that offer."""
    if draw.random() < 0.5:
        item = draw.randrange(3)
        taken = tested.put(item)
        return f"put {item}: {'taken' if taken else 'refused'}", f"put !{number(item)}", taken
    item = tested.get()
    if item is None:
        return "get: nothing there", "get ?Nat", False
    return f"get: {item}", f"get !{number(item)}", True


def difference(draw, tested, spec):
    """One step of the test: what differs, if something does."""
    spec.settle()
    did, offer, must = stimulus(draw, tested)
    answer = spec.ask(f"offer {offer}")
    if answer.startswith("done") == must:
        return None
    return f"{did}; but to the offer of {offer} the specification answers: {answer}"


def main():
    kind = sys.argv[1] if len(sys.argv) > 1 else "sound"
    draw = random.Random(sys.argv[2] if len(sys.argv) > 2 else "1")
    tested, spec = buffer.BUFFERS[kind](), reference.Reference(SPEC, "--values", "1")
    try:
        for step in range(1, STEPS + 1):
            if found := difference(draw, tested, spec):
                print(f"step {step}: {found}", *spec.trace(), sep="\n")
                return 1
        print(f"{STEPS} steps without a difference")
        return 0
    finally:
        spec.close()


sys.exit(main())
