"""A specification as a reference: a program that talks to `lotos sim` through a pipe, line by line."""
import os
import pathlib
import subprocess
import sys

# Where the tools are, if this file stands beside them.
TOOLS = pathlib.Path(__file__).resolve().parents[2] / "tools"


# A line that changes nothing, with its answer: behind another line it shows where the answer to that ends.
NOTHING = ("do 0", "no step")
# The end of the trace where there is no step, by the word of the menu.
ENDS = {"ended": "exit", "deadlock": "deadlock", "beyond": "beyond"}


def lotos():
    """The program: the one that the environment variable LOTOS names, or the one that is built or installed; without the tools, the command `lotos`.
    Nothing is built for it: where there is none, this program ends with the status 125."""
    if not (TOOLS / "running.py").exists():
        return os.environ.get("LOTOS") or "lotos"
    sys.path.append(str(TOOLS))
    import running
    return running.found_or_end(pathlib.Path(sys.argv[0]).name)


class Stopped(Exception):
    """The reference has stopped, for the reason that it told."""


class Reference:
    """A session of `lotos sim`: each line is answered before the next one is sent."""

    def __init__(self, spec, *options, program=None):
        pipes = {"stdin": subprocess.PIPE, "stdout": subprocess.PIPE, "text": True, "bufsize": 1}
        self.run = subprocess.Popen([program or lotos(), "sim", spec, *options], **pipes)

    def ask(self, line):
        """Sends a line, and reads the first line of its answer."""
        self.run.stdin.write(line + "\n")
        return self.next()

    def next(self):
        """Reads one more line. The first word of a reason to stop is none that an answer begins with."""
        answer = self.run.stdout.readline().rstrip("\n")
        if not answer or answer.split(" ")[0] in ("spent", "large", "limit", "refused", "read", "usage"):
            raise Stopped(answer or "it has ended")
        return answer

    def lines(self, line, last):
        """Sends two lines, of which the second one has an answer of one line that is known: all lines of the first one's answer."""
        answers = [self.ask(line)]
        self.run.stdin.write(last[0] + "\n")
        while (answer := self.next()) != last[1]:
            answers.append(answer)
        return answers

    def menu(self):
        """The actions of the steps that are possible, each without its number; `more` is left out."""
        lines = self.lines("menu", NOTHING)
        return [line.split(" ", 1)[1] for line in lines if line[0].isdigit()]

    def trace(self):
        """The lines of the trace so far."""
        return self.lines("trace", NOTHING)

    def settle(self):
        """Does unseen steps until there are none."""
        while "i" in (actions := self.menu()):
            self.ask(f"do {actions.index('i') + 1}")

    def close(self):
        """Ends the session."""
        self.run.stdin.close()
        self.run.stdout.close()
        self.run.wait()
