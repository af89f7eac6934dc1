"""A session of `sim` as a person steps through it, without a screen: the steps that are possible, what was done, undo, marks and breaks. Which gate is
hidden in a step, and where it stands in the text, its tree says: a session beside this one does the same steps, then that one, and its trace is read.
Nothing of it is proved: `sim` says what is possible, and `replay` judges the trace.
"""
import pathlib
import random
import re
import subprocess
import tempfile
from collections import namedtuple

import charts
import running
import scripts
import specification
import steps
import traces
import values
import why
from offered import Offered, acting, waits
# It is found where `running` says.
import reference

# The most steps that are gone on at once.
MOST = 500

# A step that is possible: its number, and its action.
Choice = namedtuple("Choice", "number action")
# What a step is by its tree: its action with what is hidden of it, where what acts stands, as text and as ranges, and its rules with their places.
Seen = namedtuple("Seen", "action where ranges rules")


class Simulation:
    """A session: its steps are lines of `sim`, which a new session can do again."""

    def __init__(self, program, spec, options=(), seed=0):
        self.program, self.spec, self.options = program, str(spec), [str(one) for one in options]
        self.text = pathlib.Path(spec).read_text(encoding="latin-1")
        self.values, self.draw = values.Values(self.text), random.Random(seed)
        self.told, self.sim = why.Told(self.text, self.values), None
        self.undone, self.marks, self.breaks, self.known = [], {}, set(), {}
        processes = list(self.told.whole.all())
        hides = [node for process in processes for node in specification.nodes(process.body) if node.kind == "hide"]
        self.gates = {gate.lower() for one in [*processes, *hides] for gate in one.gates} | {"i", "exit"}
        self.restart([])

    # -------------------------------------------------------------- the session

    def restart(self, lines):
        """Begins a new session, and does these steps in it again."""
        self.close()
        self.sim = running.session(self.program, self.spec, *self.options)
        self.lines, self.entries, self.acts, self.stopped, self.unfit, self.refused = [], [], [], "", "", False
        try:
            self.followed = steps.Followed(specification.read(self.text), self.values)
        except RecursionError:
            self.unfit = "the text can't be followed: it spreads too far"
        try:
            for line in lines:
                self.sim.lines("menu", reference.NOTHING)
                self.sim.ask(line)
                self.lines.append(line)
        except (reference.Stopped, OSError) as reason:
            self.stopped = stop_of(reason)
        self.look()

    def close(self):
        """Ends the session."""
        if self.sim is not None:
            try:
                self.sim.close()
            except OSError:
                self.sim.run.wait()

    def send(self, line):
        """Does a step; gives the answer. What changes nothing is no step."""
        if self.stopped:
            return self.stopped
        try:
            answer = self.sim.ask(line)
        except (reference.Stopped, OSError) as reason:
            self.stopped, self.choices, self.refused = stop_of(reason), [], True
            return self.stopped
        if answer not in ("bad line", "no step"):
            self.lines.append(line)
            self.look()
        return answer

    def look(self):
        """Reads what was done, and which steps are possible; `none` is the word where there is none."""
        self.choices, self.none, self.more, self.worked = [], "", False, {}
        if self.stopped:
            return
        try:
            self.follow(self.sim.trace())
            menu = [line.split(" ", 1) for line in self.sim.lines("menu", reference.NOTHING)]
        except (reference.Stopped, OSError) as reason:
            self.stopped = stop_of(reason)
            return
        self.choices = [Choice(int(line[0]), line[1]) for line in menu if line[0].isdigit()]
        self.none, self.more = "" if self.choices else menu[0][0], ["more"] in menu

    def follow(self, lines):
        """Follows what is new in a trace: an action, or a reply, for each step."""
        for number, line in list(enumerate(lines, 1))[len(self.entries) + 1:]:
            entry, done = traces.whole_entry(number, line), None
            self.entries.append(entry)
            if entry.kind == "act" and not self.unfit:
                try:
                    done = self.followed.step(entry.tree)
                except (steps.Unfit, RecursionError) as fault:
                    self.unfit = f"from step {len(self.acts) + 1} on the text can't be followed: {fault}"
            if entry.kind in ("act", "reply"):
                self.acts.append((entry, done))

    # -------------------------------------------------------------- what is seen

    def once(self, name, work):
        """What is worked out of what was done, once."""
        if name not in self.worked:
            self.worked[name] = work()
        return self.worked[name]

    def key(self, number):
        """What a step of the menu is kept by."""
        return tuple(self.lines), number

    def seen(self, number):
        """What is known of a step of the menu by now, or None."""
        return self.known.get(self.key(number))

    def look_at(self, number):
        """What a step of the menu is by its tree."""
        if self.key(number) not in self.known:
            self.known[self.key(number)] = self.tried(number)
        return self.known[self.key(number)]

    def tried(self, number):
        """Does a step in a session beside this one; what it is by its tree."""
        lines = "".join(f"menu\n{line}\n" for line in [*self.lines, f"do {number}"]) + "trace\nquit\n"
        end = subprocess.run([self.program, "sim", self.spec, *self.options], input=lines, stdout=subprocess.PIPE, text=True, encoding="latin-1", check=False)
        told = end.stdout.split("\n")
        action = next(choice.action for choice in self.choices if choice.number == number)
        if "bye" not in told or self.unfit:
            return Seen(action, "", [], [])
        entry = traces.whole_entry(0, told[told.index("bye") - 1])
        try:
            return self.of_step(entry, steps.Step(self.followed.state, entry.tree, self.followed.whole, self.values))
        except (steps.Unfit, RecursionError):
            return Seen(action, "", [], [])

    def of_step(self, entry, done):
        """What a step is by its tree."""
        leaves = [rule.node for rule in done.rules if rule.tree.rule in steps.LEAVES]
        rules = [f"{'  ' * rule.depth}{rule.tree.rule}{'[' + ','.join(rule.tree.values) + ']' if rule.tree.values else ''}  "
                 f"{self.told.place(rule.node.begin)}" for rule in done.rules]
        return Seen(charts.labelled(entry.text, done), self.told.where(leaves), acting(done.rules), rules)

    def waiting(self):
        """Where parts wait in the text, as ranges."""
        return self.once("waiting", lambda: waits(self.followed.state, self.offered()) if self.offered() else [])

    def offered(self):
        """What could be done, or None where the text can't be followed."""
        return self.once("offered", self.could)

    def could(self):
        """Works out what could be done."""
        try:
            return None if self.unfit else Offered(self.followed.state, self.values)
        except RecursionError:
            return None

    def last(self):
        """What the last step was by its tree, or None."""
        entry, done = self.acts[-1] if self.acts else (None, None)
        return self.of_step(entry, done) if done else None

    def chart(self):
        """What stands above the chart so far, and its rows."""
        return self.once("chart", self.charted)

    def charted(self):
        """Makes the chart so far; where the text can't be followed it is a list of what was done."""
        try:
            return self.drawn()
        except (steps.Unfit, RecursionError):
            return "", [f"{number:>4}  {charts.short(entry.text)}" for number, (entry, _) in enumerate(self.acts, 1)]

    def drawn(self):
        """Draws the chart so far, with the values that are known here."""
        end = reference.ENDS.get(self.none, "waiting")
        chart = charts.chart_of([*self.entries, traces.Entry("end", 0, (), end, None)], self.text)
        rows = [row._replace(label=self.label(at)) if row.number else row for at, row in enumerate(chart.rows)]
        rows = rows if end in ("exit", "deadlock") else rows[:-1]
        head, *lines = charts.as_text(chart._replace(rows=rows)).rstrip("\n").split("\n") if rows else [""]
        return head, [line for line in lines if line not in ("", head)]

    def marked(self, length):
        """The marks behind so many of the steps that were done."""
        return "".join(sorted(letter for letter, lines in self.marks.items() if lines == self.lines[:length] and len(lines) == length))

    def whole(self, number=None):
        """All of a step of the menu, or of the last one that was done: its action, its rules, and what waits, with the values of variables."""
        seen = self.look_at(number) if number else self.last()
        if seen:
            yield f"{'step ' + str(number) + ' of the menu' if number else 'the last step'}: {seen.action}"
            yield from (f"  {rule}" for rule in seen.rules)
        yield "waits:"
        for node in [] if self.unfit else steps.waiting(self.followed.state):
            yield f"  {self.told.where([node])}  {why.joined(self.text[node.begin:node.end]) or node.name}"
            yield from (f"    {name} is {self.values.spelled(value) if value else 'not known here'}" for name, value in (node.known or {}).items())

    def why(self):
        """Why there is no step, as lines."""
        return self.once("why", self.reasons)

    def reasons(self):
        """Works out why there is no step."""
        if self.stopped:
            return [f"the session has stopped: {self.stopped}", "u goes back to what was before"]
        lines = [f"{self.none}: {why.MEANINGS[self.none]}"] + ["an offer that is typed may name one, and more --values look at more"] * (self.none == "beyond")
        return lines + (list(self.told.state(self.offered())) if self.offered() and self.none != "ended" else [])

    def trace(self):
        """The trace so far, with an end, as `replay` takes it."""
        lines = self.sim.trace()
        return "".join(line + "\n" for line in [*lines, f"end {reference.ENDS.get(self.none, 'waiting')}"])

    # -------------------------------------------------------------- what is done

    def choose(self, number):
        """Does a step of the menu; gives the answer."""
        self.undone = []
        return self.worded(self.send(f"do {number}"))

    def worded(self, answer):
        """An answer as it is told: of what is done also what is hidden in it."""
        return f"done {self.label(-1)}" if answer.startswith("done ") else charts.short(answer)

    def offer(self, text):
        """Makes an offer that is typed; gives lines that say what came of it. A number stands for as many `Succ(..)` round `0`, unless it is a name here."""
        answer = self.send(f"offer {self.spelled(text)}")
        if answer == "bad line":
            return ["bad line: " + self.fault(self.spelled(text))]
        self.undone = []
        if answer not in why.MEANINGS or not self.offered():
            return [self.worded(answer)]
        offer = next(entry.text for entry in reversed(self.entries) if entry.kind == "ask")
        said = list(dict.fromkeys(self.told.near(self.offered(), offer))) if answer != "ended" else []
        return [f"{charts.short(offer)}: {answer}, {why.MEANINGS[answer]}", *said]

    def spelled(self, text):
        """An offer with terms in the place of numbers that are no names."""
        def term(found):
            return found[0] if self.values.content.named(found[0]) or int(found[0]) > 9999 else f"{'Succ(' * int(found[0])}0{')' * int(found[0])}"
        return re.sub(r"(?<![\w])\d+(?!\w)", term, text) if self.values.content.named("succ") else text

    def fault(self, text):
        """What is wrong with an offer, as a script of it is refused."""
        with tempfile.TemporaryDirectory() as place:
            script = pathlib.Path(place, "script")
            script.write_text(f"1: {text}\n", encoding="latin-1", errors="replace")
            answer = running.answer(self.program, "run", self.spec, script, "--steps", 1)[0].split()
        column, said = scripts.fault(answer[3], f"1: {text}", self.told.whole, self.values.content) if answer[:2] == ["script", "refused"] else (0, "")
        return f"column {column - 3}: {said}" if column > 3 else said or "an offer is GATE, with a field !expression or ?Sort for each value"

    def undo(self):
        """Takes the last step back, by a new session that does those before it; gives a sentence. A step that stopped the session wasn't done."""
        if self.refused:
            self.restart(self.lines)
        elif self.lines:
            self.undone.append(self.lines[-1])
            self.restart(self.lines[:-1])
        else:
            return "nothing is done yet"
        return f"taken back: {count(len(self.lines))} done"

    def redo(self):
        """Does the step that was taken back last again; gives the answer."""
        if not self.undone:
            return "nothing was taken back"
        rest, line = self.undone[:-1], self.undone[-1]
        answer = self.send(line)
        self.undone = rest
        return self.worded(answer)

    def mark(self, letter):
        """Marks what is done so far; gives a sentence."""
        self.marks[letter] = list(self.lines)
        return f"{letter} marks what is done so far: {count(len(self.lines))}"

    def back(self, letter):
        """Goes to a mark, by a new session; gives a sentence."""
        if letter not in self.marks:
            return f"there is no mark {letter}; there are {why.listed(sorted(self.marks))}"
        self.undone = []
        self.restart(self.marks[letter])
        return f"at the mark {letter}: {count(len(self.lines))} done"

    def toggle(self, gate):
        """Sets a break, or takes it away; gives a sentence."""
        gate = gate.lower()
        if gate not in self.gates:
            return f"there is no gate {gate}; there are {why.listed(sorted(self.gates))}"
        self.breaks ^= {gate}
        return f"breaks: {why.listed(sorted(self.breaks))}"

    def is_break(self):
        """Whether the last step was at a gate of a break, also a hidden one."""
        entry, done = self.acts[-1]
        return bool(self.breaks & {entry.text.split(" ")[0].lower(), done.hidden.gate.lower() if done and done.hidden else ""})

    def go_on(self, interrupted=lambda: False):
        """Does steps, each chosen evenly among those of the menu, until one is at a gate of a break, or there is none; gives a sentence. The mark `.` is
        where it began."""
        begun = len(self.lines)
        if self.choices:
            self.undone, self.marks["."] = [], list(self.lines)
        while self.choices and len(self.lines) < begun + MOST and not interrupted():
            self.send(f"do {self.draw.choice(self.choices).number}")
            if not self.refused and self.is_break():
                return f"{count(len(self.lines) - begun)}, to a break: {self.label(-1)}"
        made = len(self.lines) - begun
        return f"{count(made)}, and no break" + ("" if self.choices and made == MOST else f": {self.none or self.stopped or 'interrupted'}")

    def label(self, at):
        """The label of a step that was done."""
        entry, done = self.acts[at]
        return charts.short(charts.labelled(entry.text, done) if done else entry.text)


def stop_of(reason):
    """Why a session has stopped, as `sim` says it."""
    return "it has ended" if isinstance(reason, OSError) else str(reason)


def count(number):
    """A number of steps."""
    return "1 step" if number == 1 else f"{number} steps"
