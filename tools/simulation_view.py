"""What a simulation shows on so many lines and columns, and what the keys do; without a screen. A row is a list of pieces, each a text and its style:
`head`, `waits` and `chosen` in the text, `selected` in the menu, `told`, `keys`, or nothing.

On a wide screen the text stands on the left, and the menu over the chart on the right; else they stand one over another.
"""
import re
import textwrap

import charts
import specification

WIDE, LEAST = 120, (40, 12)
KEYS = "Enter do  o offer  u undo  m mark  ' back  b break  g go  v all  ? keys  q quit"
MORE_KEYS = "r redo  w write  Tab pane  z zoom"
HELP = """\
up, down   choose a step of the menu; so does its number
Enter      do the step that is chosen
o          make an offer: GATE, and for each value !expression or ?Sort; a number
           stands for a natural, unless it is a name of the specification
u, r       take the last step back; do it again
m, '       mark what is done so far, with a letter; go back to a mark
b          set a break at a gate, also a hidden one, or take it away
g          go on, by steps chosen at random, until one is at a gate of a break,
           or none is left, or a key is pressed; '. goes back to the beginning
v          all of the chosen step: whole values, rules with their places, and what
           waits, with the values of its variables
w          write the trace so far into a file, for replay, tools/draw, tools/page
Tab, z     go to the next pane: text, menu, chart; give it the whole screen
arrows, Page up, Page down, Home     move in the pane
q          quit

In the text `*` stands at lines where parts wait, and `>` where the chosen step
acts. In the menu i (middle !1) is an internal step that hides an action at
middle, with the value 1; .. stands where a place isn't known yet. Only what
`sim` answers is proved, and that where the program is.""".split("\n")
OVER = "up, down and Page show more, any other key goes on"
PANES = ("text", "menu", "chart")
# What is asked for a line of text, or for one letter.
ASKED = {"o": "offer: ", "b": "break at the gate: ", "w": "write the trace to: ", "m": "mark: ", "'": "back to the mark: "}
LETTERS = "m'"


def plain(row):
    """A row as text."""
    return "".join(text for text, _ in row).rstrip()


def windowed(count, rows, at):
    """The first of so many rows of a list that are shown, when they should begin at this one."""
    return max(0, min(at, count - rows))


def shown(text):
    """A text of a file as a screen can show it, each character as one."""
    return "".join(char if " " <= char <= "~" else " " if char < " " else "?" for char in text)


def styled(line, spans, left, width):
    """A part of a line as pieces, with the styles of its spans: (begin, end, style), of which later ones stand over earlier ones."""
    styles = [""] * len(line)
    for begin, end, style in spans:
        styles[begin:end] = [style] * (min(end, len(line)) - begin)
    pieces = []
    for char, style in list(zip(line, styles))[left:left + width]:
        if pieces and pieces[-1][1] == style:
            pieces[-1] = pieces[-1][0] + char, style
        else:
            pieces.append((char, style))
    return pieces


class View:
    """What is shown of a simulation."""

    def __init__(self, simulation, name, interrupted=lambda: False):
        self.simulation, self.name, self.interrupted = simulation, name, interrupted
        self.selected, self.top, self.focus, self.zoomed, self.ended = 0, 0, "menu", False, False
        self.moved, self.begun, self.left, self.digits, self.message, self.asked, self.typed = {}, {}, {}, "", "", "", ""
        self.overlay, self.at, self.height, self.visible = None, 0, 24, []
        self.text = [shown(line) for line in simulation.text.removesuffix("\n").split("\n")]

    # -------------------------------------------------------------- rows

    def rows(self, width, height):
        """All rows of the screen."""
        self.height = height
        if width < LEAST[0] or height < LEAST[1]:
            return [[("the terminal is too small"[:width], "")]]
        body = height - 3
        if self.overlay is not None:
            found = self.overlaid(width, body)
        elif self.zoomed:
            found = self.pane(self.focus, width, body)
        elif width >= WIDE:
            left = (width - 1) // 2
            menu = body * 2 // 5
            right = self.pane("menu", width - left - 1, menu) + self.pane("chart", width - left - 1, body - menu)
            found = [side_by_side(one, other, left) for one, other in zip(self.pane("text", left, body), right)]
        else:
            text, menu = body * 2 // 5, body * 3 // 10
            found = self.pane("text", width, text) + self.pane("menu", width, menu) + self.pane("chart", width, body - text - menu)
        return [self.title(width), *found, self.foot(width), [((KEYS + ("  " + MORE_KEYS if width >= WIDE else ""))[:width], "keys")]]

    def title(self, width):
        """The title: the specification, and what is set."""
        one = self.simulation
        breaks = f"  breaks: {', '.join(sorted(one.breaks))}" if one.breaks else ""
        return [(f"{self.name}  {len(one.lines)} done{breaks}{'  ' + one.unfit if one.unfit else ''}"[:width], "head")]

    def foot(self, width):
        """What is asked for, or what was told last."""
        if self.overlay is not None:
            return [(OVER[:width], "told")]
        asked = self.asked and f"{ASKED[self.asked]}{self.typed}_"
        return [(asked[-width:] if asked else shown(self.message)[:width], "told")]

    def pane(self, name, width, height):
        """A pane with its head."""
        fill = "=" if name == self.focus else "-"
        told, rows = {"text": self.text_pane, "menu": self.menu_pane, "chart": self.chart_pane}[name](width, height - 1)
        head = f"{fill * 2} {told} "
        return [[(head[:width] + fill * (width - len(head)), "head")], *rows, *([[]] * (height - 1 - len(rows)))]

    def ranges(self):
        """Ranges of the text with their styles, those of the chosen step last."""
        seen = self.simulation.seen(self.choice().number) if self.choice() else None
        return [(*one, "waits") for one in self.simulation.waiting()] + [(*one, "chosen") for one in (seen.ranges if seen else [])]

    def text_pane(self, width, rows):
        """The text: each line with its number and a sign, and where parts wait and the chosen step acts."""
        spans = {}
        for begin, end, style in self.ranges():
            (first, column), (last, stop) = (specification.place(self.simulation.text, place) for place in (begin, end))
            for line in range(first, last + 1):
                spans.setdefault(line, []).append((column - 1 if line == first else 0, stop - 1 if line == last else len(self.text[line - 1]), style))
        chosen = [line for line, found in spans.items() if any(style == "chosen" for *_, style in found)]
        wanted = min(chosen or spans, default=1) - 1
        top = windowed(len(self.text), rows, self.moved.get("text", wanted - rows // 3))
        # Where what acts first stands far to the right, the lines are moved.
        far = min((begin for begin, _, style in spans.get(wanted + 1, []) if style == ("chosen" if chosen else "waits")), default=0)
        left, found = self.left.get("text", far - width // 2 if far > width - 16 else 0), []
        for number, line in list(enumerate(self.text, 1))[top:top + rows]:
            sign = ">" if number in chosen else "*" if number in spans else " "
            found.append([(f"{number:>4}{sign} ", ""), *styled(line, spans.get(number, []), left, width - 6)])
        self.begun["text"], self.begun["left of text"] = top, left
        return f"text, lines {top + 1} to {top + len(found)} of {len(self.text)}", found

    def choice(self):
        """The step of the menu that is chosen, or None."""
        choices = self.simulation.choices
        return choices[min(self.selected, len(choices) - 1)] if choices else None

    def menu_pane(self, width, rows):
        """The steps that are possible, or why there is none."""
        choices = self.simulation.choices
        if not choices:
            lines = [piece for line in self.simulation.why() for piece in pieces(closer(shown(charts.digits(line))), width)]
            top = windowed(len(lines), rows, self.moved.get("menu", 0))
            self.begun["menu"] = top
            self.visible = []
            return "menu: no step", [[(line, "")] for line in lines[top:top + rows]]
        self.top = windowed(len(choices), rows, max(min(self.top, self.selected), self.selected - rows + 1))
        self.visible = choices[self.top:self.top + rows]
        seen = [self.simulation.seen(one.number) for one in self.visible]
        labels = [shown(charts.short(one.action if told is None else told.action)) for one, told in zip(self.visible, seen)]
        wide = min(max(map(len, labels)), width // 2)
        lines = [f"{'>' if one is self.choice() else ' '}{one.number:>4}  {charts.cut(label, wide):<{wide}}  {'..' if told is None else told.where}"
                 for one, label, told in zip(self.visible, labels, seen)]
        told = f"menu, {self.top + 1} to {self.top + len(lines)} of {len(choices)}{' and more' if self.simulation.more else ''}"
        return told, [[(line[:width], "selected" if line[0] == ">" else "")] for line in lines]

    def chart_pane(self, width, rows):
        """The last rows of the chart, with what stands above them; a mark stands behind what it marks."""
        head, lines = self.simulation.chart()
        marks = [self.simulation.marked(length) for length in range(len(lines) + 1)]
        top, left = windowed(len(lines), rows - 1, self.moved.get("chart", len(lines))), self.left.get("chart", 0)
        self.begun["chart"] = top
        found = [f"{mark[:3]:<3}{line}"[left:][:width] for mark, line in zip(marks, [head, *lines])]
        return f"chart, {count_of(lines, top, rows - 1)}", [[(line, "")] for line in [found[0], *found[1 + top:][:rows - 1]]]

    def overlaid(self, width, rows):
        """What is shown in the place of the panes, lines in pieces."""
        lines = [piece for line in self.overlay for piece in pieces(shown(line), width)]
        self.at = windowed(len(lines), rows, self.at)
        found = [[(line, "")] for line in lines[self.at:self.at + rows]]
        return found + [[]] * (rows - len(found))

    def wanted(self):
        """The next step of the menu that is shown and isn't looked at yet, or None."""
        if self.overlay is not None or self.asked:
            return None
        first = [self.choice()] if self.choice() in self.visible else []
        return next((one.number for one in first + self.visible if self.simulation.seen(one.number) is None), None)

    # -------------------------------------------------------------- keys

    def key(self, name):
        """Does what a key is for: its character, or a name as `up` and `enter`."""
        if self.overlay is not None:
            self.key_over(name)
        elif self.asked:
            self.key_asked(name)
        else:
            self.message = ""
            digits, self.digits = self.digits, ""
            if name.isdigit():
                self.number(digits + name)
            elif name in ("up", "down", "left", "right", "page up", "page down", "home"):
                self.move(name)
            elif name in ASKED:
                self.asked, self.typed = name, ""
            elif name in DOES:
                DOES[name](self)
            elif len(name) == 1:
                self.message = f"{name} is no key here: ? shows all"

    def key_over(self, name):
        """Moves in what is shown in the place of the panes, or ends it."""
        by = {"up": -1, "down": 1, "page up": 4 - self.height, "page down": self.height - 4, "home": -self.at}.get(name)
        if by is None:
            self.overlay = None
        else:
            self.at = max(0, self.at + by)

    def key_asked(self, name):
        """Types what is asked for."""
        if name == "escape":
            self.asked = ""
        elif name == "backspace":
            self.typed = self.typed[:-1]
        elif len(name) == 1 and self.asked in LETTERS or name == "enter":
            asked, self.asked = self.asked, ""
            self.answered(asked, name if len(name) == 1 else self.typed.strip())
        elif len(name) == 1:
            self.typed += name

    def answered(self, asked, text):
        """Does what was asked, with what was typed."""
        if not text:
            return
        if asked == "o":
            self.say(self.simulation.offer(text))
        elif asked == "w":
            self.write(text)
        else:
            self.say([{"b": self.simulation.toggle, "m": self.simulation.mark, "'": self.simulation.back}[asked](text)])
        if asked in "o'":
            self.changed()

    def say(self, lines):
        """Tells lines: one at the foot, more in the place of the panes."""
        self.message = lines[0]
        if len(lines) > 1 or len(lines[0]) > 78:
            self.overlay, self.at = list(map(charts.digits, lines)), 0

    def write(self, name):
        """Writes the trace into a file."""
        try:
            with open(name, "w", encoding="latin-1") as file:
                file.write(self.simulation.trace())
            self.message = f"written: {name}"
        except OSError as fault:
            self.message = str(fault)

    def changed(self):
        """Shows what there is behind a step, from the beginning of the menu."""
        self.selected, self.top, self.moved, self.left = 0, 0, {}, {"chart": self.left.get("chart", 0)}

    def number(self, digits):
        """Chooses a step by its number."""
        self.digits = digits[:6]
        if 1 <= int(self.digits) <= len(self.simulation.choices):
            self.selected = int(self.digits) - 1
            self.moved.pop("text", None)
        else:
            self.message = f"there is no step {self.digits}"
            self.digits = ""

    def move(self, name):
        """Moves in the pane."""
        by = {"up": -1, "down": 1, "page up": -self.height // 3, "page down": self.height // 3, "home": -10 ** 6}.get(name)
        if by is None:
            self.left[self.focus] = max(0, self.left.get(self.focus, self.begun.get("left of " + self.focus, 0)) + (8 if name == "right" else -8))
        elif self.focus == "menu" and self.simulation.choices:
            self.selected = max(0, min(self.selected + by, len(self.simulation.choices) - 1))
            self.moved.pop("text", None)
        else:
            self.moved[self.focus] = max(0, self.begun.get(self.focus, 0) + by)

    def do(self):
        """Does the chosen step."""
        if self.choice():
            self.say([self.simulation.choose(self.choice().number)])
            self.changed()
        else:
            self.message = "there is no step: u takes the last one back"

    def undo(self):
        """Takes the last step back."""
        self.say([self.simulation.undo()])
        self.changed()

    def redo(self):
        """Does again what was taken back."""
        self.say([self.simulation.redo()])
        self.changed()

    def go(self):
        """Goes on to a break."""
        self.say([self.simulation.go_on(self.interrupted)])
        self.changed()

    def whole(self):
        """Shows all of the chosen step."""
        self.overlay, self.at = list(self.simulation.whole(self.choice().number if self.choice() else None)), 0

    def help(self):
        """Shows all keys."""
        self.overlay, self.at = list(HELP), 0

    def next_pane(self):
        """Goes to the next pane."""
        self.focus = PANES[(PANES.index(self.focus) + 1) % len(PANES)]

    def zoom(self):
        """Gives the pane the whole screen, or not."""
        self.zoomed = not self.zoomed

    def quit(self):
        """Ends."""
        self.ended = True


DOES = {"enter": View.do, "u": View.undo, "r": View.redo, "g": View.go, "v": View.whole, "?": View.help, "tab": View.next_pane, "z": View.zoom, "q": View.quit}


def count_of(lines, top, rows):
    """Which rows are shown, of how many."""
    return f"rows {top + 1} to {min(top + rows, len(lines))} of {len(lines)}" if lines else "nothing done yet"


def closer(line):
    """A line of a table with two blanks between its columns."""
    return re.sub(r"(?<=\S) {2,}", "  ", line)


def pieces(line, width):
    """A line in pieces that are no wider, one at least; those behind the first stand further in."""
    inside = " " * (len(line) - len(line.lstrip(" ")) + 2)
    return textwrap.wrap(line, width, subsequent_indent=inside, break_on_hyphens=False, tabsize=1) or [""]


def side_by_side(one, other, left):
    """Two rows with a line between."""
    used = sum(len(text) for text, _ in one)
    return [*one, (" " * (left - used) + "|", ""), *other]
