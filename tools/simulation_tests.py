"""Tests of tools/simulate against screens that were worked out by hand: without a screen, and in a real terminal, that of tmux, where it is there.

A file in tools/due/screens/ begins with `$ `, the specification and options. Then come lines `size COLUMNSxROWS`; `keys`, each a name as `down`, or characters,
in which `_` stands for a blank; and behind them what is due of the screen, a line `ROW|TEXT` for a row, from 1, and `ROW STYLE TEXT` for a piece of it.
"""
import os
import pathlib
import re
import shutil
import subprocess
import sys
import tempfile
import time

import due_texts
import program
from simulation import Simulation
from simulation_view import View, plain

SCREENS = due_texts.DUE / "screens"
# A program that answers for two examples, where the program isn't there.
STAND_IN = SCREENS / "two_places"
# The keys with a name, as tmux calls them; and for how many seconds a terminal is waited for.
NAMED = {"enter": "Enter", "up": "Up", "down": "Down", "left": "Left", "right": "Right", "tab": "Tab", "escape": "Escape", "backspace": "BSpace",
         "home": "Home", "page-up": "PPage", "page-down": "NPage"}
PATIENCE = 90


def stages(path):
    """The specification with its options, and the stages: a size, keys, and what is due: rows by number, and pieces as (row, style, text)."""
    head, *lines = path.read_text(encoding="ascii").rstrip("\n").split("\n")
    found = []
    for line in lines:
        if size := re.fullmatch(r"size (\d+)x(\d+)", line):
            found.append((tuple(map(int, size.groups())), [], {}, []))
        elif line.startswith("keys "):
            found.append((found[-1][0], line.split()[1:], {}, []))
        elif row := re.fullmatch(r"(\d+)\|(.*)", line):
            found[-1][2][int(row[1])] = row[2]
        else:
            number, style, text = line.split(" ", 2)
            found[-1][3].append((int(number), style, text))
    return head.removeprefix("$ ").split(), found


def differences(rows, due):
    """What is due of rows and isn't there, as sentences."""
    return [f"row {number} is {rows[number - 1] if number <= len(rows) else 'missing'!r}, and {text!r} is due"
            for number, text in due.items() if number > len(rows) or rows[number - 1] != text]


def typed(token):
    """The keys of a word of a stage."""
    return [token.replace("-", " ")] if token in NAMED else list(token.replace("_", " "))


def view_faults(path, tested):
    """What is wrong with a view, without a screen."""
    (spec, *options), found = stages(path)
    view = View(Simulation(tested, program.TOP / spec, options), pathlib.Path(spec).name)
    for at, (size, keys, due, styles) in enumerate(found, 1):
        for key in (key for token in keys for key in typed(token)):
            view.rows(*size)
            view.key(key)
        rows = view.rows(*size)
        while (wanted := view.wanted()) is not None:
            view.simulation.look_at(wanted)
            rows = view.rows(*size)
        yield from (f"stage {at}: {one}" for one in differences([plain(row) for row in rows], due))
        yield from (f"stage {at}: in row {number} {text!r} isn't {style}" for number, style, text in styles if (text, style) not in rows[number - 1])
        if len(rows) not in (1, size[1]) or any(len("".join(text for text, _ in row)) > size[0] for row in rows):
            yield f"stage {at}: it has another size"
    view.simulation.close()


class Terminal:
    """A terminal of tmux in which a tool runs, with a server of its own."""

    def __init__(self, folder, size, words):
        self.call = ["tmux", "-S", f"{folder}/socket", "-f", f"{folder}/conf"]
        pathlib.Path(folder, "conf").write_text("set -g status off\nset -g default-terminal screen\nset -g escape-time 0\n", encoding="ascii")
        self.tmux("new-session", "-d", "-x", str(size[0]), "-y", str(size[1]), "--", *words)

    def tmux(self, *words):
        """Calls tmux; gives what it writes."""
        known = {name: value for name, value in os.environ.items() if name != "TMUX"}
        return subprocess.run([*self.call, *words], stdin=subprocess.DEVNULL, capture_output=True, text=True, timeout=60, check=False, env=known).stdout

    def press(self, token):
        """Presses keys."""
        if token in NAMED:
            self.tmux("send-keys", NAMED[token])
        else:
            self.tmux("send-keys", "-l", "--", token.replace("_", " "))

    def rows(self):
        """The rows of the screen."""
        return self.tmux("capture-pane", "-p").split("\n")

    def faults(self, due):
        """What is due and isn't there, when it was waited for."""
        end = time.monotonic() + PATIENCE
        while (found := differences(self.rows(), due)) and time.monotonic() < end:
            time.sleep(0.05)
        return found


def terminal_faults(path, tested):
    """What is wrong with the screen of a terminal; the first stage at which something is."""
    words, found = stages(path)
    with tempfile.TemporaryDirectory() as folder:
        terminal = Terminal(folder, found[0][0], [sys.executable, str(program.TOP / "tools/simulate"), "--program", str(tested), *words])
        try:
            size = found[0][0]
            for at, (wanted, keys, due, _) in enumerate(found, 1):
                if wanted != size:
                    size = wanted
                    terminal.tmux("resize-window", "-x", str(size[0]), "-y", str(size[1]))
                for token in keys:
                    terminal.press(token)
                if faults := terminal.faults(due):
                    yield f"stage {at}: {faults[0]}"
                    return
            terminal.press("escape")
            terminal.press("escape")
            terminal.press("q")
            end = time.monotonic() + PATIENCE
            while terminal.tmux("list-sessions") and time.monotonic() < end:
                time.sleep(0.05)
            if terminal.tmux("list-sessions"):
                yield "q doesn't end it"
        finally:
            terminal.tmux("kill-server")


def tests(paths, tested):
    """The tests of screens: a name, and what is wrong."""
    paths = sorted(paths)
    for path in paths:
        yield f"{path.name}, without a screen", list(view_faults(path, str(tested)))
    if not shutil.which("tmux"):
        print("left out: tools/simulate in a terminal, since tmux isn't there")
        return
    for path in paths:
        yield f"{path.name}, in a terminal", list(terminal_faults(path, str(tested)))
