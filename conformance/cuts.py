"""Every beginning, byte by byte, of a specification, of a script and of a trace, each as a case with what is due.

The specification is the alternating bit protocol of conformance/beginnings, each token of which is needed. Where a beginning ends behind a
token, the end of the text is refused, until the last token is there. Where it ends within one, what is left of that token is refused, or may
stand there, and then the end of the text is refused; conformance/beginnings says which for one token of each spelling. A lone bar is no
token. Of the script and of the trace the line with the cut is refused, or the session is that of the offers up to there.
"""
import pathlib
import re

import blocks

FOLDER = pathlib.Path(__file__).resolve().parent
TOKEN = re.compile(r"\w+|\|\|\||\|\[|\]\||\[\]|:=|[^\w\s]")
ACCEPTED = b"accepted sorts 2 operations 21 equations 33 processes 4\n"

SPEC = b"""specification S [put, get] : noexit
library Boolean endlib
behaviour put ?x:Bool; get !x; stop endspec
"""
# The pieces of a script, with one letter for each byte: what is due of the script that ends there. It is refused with its last line and the
# kind form, gate, sort or term; or it offers nothing yet, or what the sessions of these names say.
SCRIPT = [("1: ", "fff"), ("put", "ggP"), (" ", "P"), ("!", "f"), ("not", "ttt"), ("(", "f"), ("true", "ffff"), (")", "Q"), ("\n", "Q"),
          ("1: ", "fff"), ("get", "ggG"), (" ", "G"), ("?", "f"), ("Bool", "sssH"), ("\n", "H")]
KINDS = {"f": "form", "g": "gate", "s": "sort", "t": "term"}
TAKEN = "pend 1.1 put !false\nact put !false by 1.1 rules pre[false]\n"
SESSIONS = {
    "N": "end waiting\n",
    "P": "pend 1.1 put\nstall 1.1\nleave 1\nend waiting\n",
    "Q": TAKEN + "leave 1\nend waiting\n",
    "G": TAKEN + "pend 1.2 get\nstall 1.2\nleave 1\nend waiting\n",
    "H": TAKEN + "pend 1.2 get ?Bool\nact get !false by 1.2 rules pre\nleave 1\nend deadlock\n",
}


def alternating_bit():
    """The text of the alternating bit protocol."""
    cases = blocks.read((FOLDER / "beginnings/cases.txt").read_text(encoding="latin-1"))
    case = next(one for one in cases if one["name"] == "the alternating bit protocol")
    return blocks.bytes_of(FOLDER / "beginnings", case["files"]["spec.lotos"])


def case(name, words, status, files, dues):
    """A case with these bytes in its files, and one of these outputs."""
    return {"name": name, "shows": "", "words": words, "status": status, "files": {one: [(text, 1)] for one, text in files.items()},
            "stdout": [[(due, 1)] for due in dues]}


def place(text, end):
    """The place of a byte, as a refusal has it."""
    return b"%d:%d" % (text.count(b"\n", 0, end) + 1, end - text.rfind(b"\n", 0, end))


def specifications():
    """The beginnings of the specification."""
    text = alternating_bit()
    tokens = [(one.start(), one.end()) for one in TOKEN.finditer(text.decode("ascii"))]
    for end in range(len(text) + 1):
        ended = b"refused 3 Unexpected %s end of text\n" % place(text, end)
        piece = next((text[start:end] for start, stop in tokens if start < end < stop), b"")
        begin = place(text, end - len(piece))
        if end >= tokens[-1][1]:
            status, dues = 0, [ACCEPTED]
        elif piece == b"|":
            status, dues = 1, [b"refused 1 BadByte %s 7c\n" % begin]
        else:
            status, dues = 1, [ended] + [b"refused 3 Unexpected %s %s\n" % (begin, piece)] * bool(piece)
        yield case(f"the first {end} bytes of a specification", [b"check", b"spec.lotos"], status, {"spec.lotos": text[:end]}, dues)


def scripts():
    """The beginnings of the script."""
    text = "".join(piece for piece, _ in SCRIPT).encode("ascii")
    for end, due in enumerate("N" + "".join(letters for _, letters in SCRIPT)):
        if due in KINDS:
            status, output = 8, f"script refused {text.count(10, 0, end) + 1} {KINDS[due]}\n"
        else:
            status, output = 0, "lotos-trace 1\n" + SESSIONS[due]
        files = {"spec.lotos": SPEC, "script.txt": text[:end]}
        yield case(f"the first {end} bytes of a script", [b"run", b"spec.lotos", b"script.txt"], status, files, [output.encode("ascii")])


def traces():
    """The beginnings of a trace."""
    text = ("lotos-trace 1\n" + SESSIONS["H"]).encode("ascii")
    for end in range(len(text) + 1):
        refused = b"script refused %d form\n" % (text.count(b"\n", 0, end) + 1)
        status, due = (8, refused) if end < len(text) else (0, b"derivation 2\n")
        files = {"spec.lotos": SPEC, "made.trace": text[:end]}
        yield case(f"the first {end} bytes of a trace", [b"replay", b"spec.lotos", b"made.trace"], status, files, [due])


def cases():
    """All of them, each with its folder, as those of a file."""
    return [(FOLDER / "cuts", one) for beginnings in (specifications(), scripts(), traces()) for one in beginnings]
