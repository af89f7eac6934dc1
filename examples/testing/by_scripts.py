#!/usr/bin/env python3
"""Drives `run` by scripts that are made on the way: each next offer depends on the answers to those before.

usage: examples/testing/by_scripts.py

One client's session is fixed by its script and the options. So a script with one more line does the same as before, and then answers the new line:
the program is run again, and its trace is read. Here items are put until one stalls, and then taken until nothing comes.
"""
import os
import pathlib
import subprocess
import sys
import tempfile

from reference import lotos

SPEC = os.path.abspath("examples/two_place_buffer/spec.lotos")


class Driver:
    """A script that grows."""

    def __init__(self, folder):
        self.program, self.path, self.offers = lotos(), pathlib.Path(folder, "offers.script"), []

    def offer(self, offer):
        """Adds an offer, runs the script, and gives the answer to the new offer: its action, or the line that answers it."""
        self.offers.append(offer)
        self.path.write_text("".join(f"1: {one}\n" for one in self.offers), encoding="ascii")
        trace = subprocess.run([self.program, "run", SPEC, str(self.path)], capture_output=True, text=True, check=True).stdout
        name = f"1.{len(self.offers)}"
        for line in trace.splitlines():
            words = line.split(" ")
            if words[0] == "act" and f" by {name} rules " in line:
                return line[4:].split(" by ")[0]
            if words[0] in ("stall", "reply") and name in words:
                return words[0] if words[0] == "stall" else " ".join(words[2:])
        return None


def main():
    with tempfile.TemporaryDirectory() as folder:
        driver, number = Driver(folder), 0
        while (answer := driver.offer(f"put !{'Succ(' * number}0{')' * number}")) != "stall":
            print(answer)
            number += 1
        print(f"the next put stalls: {number} places")
        while (answer := driver.offer("get ?Nat")) != "stall":
            print(answer)
        print("the next get stalls")
    return 0


sys.exit(main())
