"""Cases as texts that people can read: a case a block of lines (conformance/README.md).

A case is a dictionary with these keys:
  name      its name, which no other case of the file has
  shows     a sentence: what it shows
  words     the words after the program's name, each as bytes
  status    the exit status that is due
  files     the files that the program finds: a dictionary from names to texts
  stdin     standard input; empty where it is left out, and None where it is a folder, which can't be read
  threads   how many threads the system lets the program have, its first included; left out where there is no such limit
  stdout    the texts of which one must be written; or, in its place:
  judge     what is due of a trace that depends on the order of the clients' turns
A text is a list of pieces, each bytes that stand a number of times, or the path of a file beside the cases.
"""
import re

HEAD, TEXT, CALL, STATUS = "== ", "-- ", "$ lotos", "status "
THREADS = "threads"
PIECES, UNENDED, BESIDE = " (pieces)", " (no line end)", " (from "
UNREADABLE = "stdin (a folder)"
ESCAPES = {"\n": "\\n", "\r": "\\r", "\t": "\\t", "\\": "\\\\", '"': '\\"'}
MEANINGS = {"n": "\n", "r": "\r", "t": "\t", "\\": "\\", '"': '"'}
WORD = re.compile(r'\s*(?:"((?:[^"\\]|\\.)*)"|([^\s"]+))')
# What may stand under `judge`: a key, and whether it has several lists, one, or one for each offer.
JUDGED = {"actions": "lists", "in any order": "list", "ends": "list", "answer": "named"}


class Unreadable(ValueError):
    """A file of cases isn't as it is said to be."""


def escaped(data):
    """Bytes in printable characters of ASCII."""
    return "".join(ESCAPES.get(char) or (char if " " <= char <= "~" else f"\\x{ord(char):02x}") for char in data.decode("latin-1"))


def meant(text):
    """The bytes that escaped characters stand for."""
    def one(found):
        return chr(int(found[1][1:], 16)) if found[1][0] == "x" else MEANINGS[found[1]]
    return re.sub(r"\\(x[0-9a-f]{2}|.)", one, text).encode("latin-1")


# ------------------------------------------------------------------ writing

def written_word(word):
    """A word of a call; in quotation marks where it is empty or has other characters than those of plain words."""
    text = escaped(word)
    return text if re.fullmatch(r'[^\s"\\]+', text) else f'"{text}"'


def is_plain(data):
    """Whether a text may stand as it is, line by line: printable ASCII, none of whose lines looks like one of ours."""
    lines = data.decode("latin-1").split("\n")
    return bool(data) and re.fullmatch(r"[\x20-\x7e\n]*", data.decode("latin-1")) is not None \
        and not any(line.startswith((HEAD, TEXT)) or line != line.rstrip() for line in lines) and len(max(lines, key=len)) <= 1000


def written_text(name, text):
    """The lines of a text under its name."""
    if isinstance(text, str):
        return [f"{TEXT}{name}{BESIDE}{text})"]
    if len(text) == 1 and text[0][1] == 1 and is_plain(text[0][0]):
        lines = text[0][0].decode("latin-1").split("\n")
        if lines[-1] == "":
            return [TEXT + name, *lines[:-1]]
        return [TEXT + name + UNENDED, *lines]
    pieces = [(part + b"\n" * ended, times) for data, times in text for part, ended in parted(data, times)]
    if not pieces:
        return [TEXT + name]
    return [TEXT + name + PIECES, *(f"{times} {escaped(part)}" for part, times in pieces)]


def parted(data, times):
    """A piece that stands once, line by line; one that stands several times, whole."""
    if times != 1:
        return [(data, False)]
    lines = data.split(b"\n")
    return [(line, True) for line in lines[:-1]] + ([(lines[-1], False)] if lines[-1] else [])


def written_judge(due):
    """What is due of a trace, a line for each list."""
    lines = []
    for key, kind in JUDGED.items():
        found = due.get(key, {} if kind == "named" else [])
        if kind == "lists":
            lines += [f"{key}: " + "; ".join(one) for one in found]
        elif kind == "named":
            lines += [f"{key} {name}: " + "; ".join(one) for name, one in found.items()]
        elif key in due:
            lines.append(f"{key}: " + "; ".join(found))
    return lines


def written_case(case):
    """A case as lines."""
    lines = [HEAD + case["name"], case["shows"], " ".join([CALL, *map(written_word, case["words"])]), STATUS + str(case["status"])]
    for name, text in case.get("files", {}).items():
        lines += written_text(name, text)
    if "stdin" in case:
        lines += [TEXT + UNREADABLE] if case["stdin"] is None else written_text("stdin", case["stdin"])
    if THREADS in case:
        lines += [TEXT + THREADS, str(case[THREADS])]
    for text in case.get("stdout", []):
        lines += written_text("stdout", text)
    if "judge" in case:
        lines += [TEXT + "judge", *written_judge(case["judge"])]
    return lines


def written(about, cases):
    """A file of cases, behind lines that say what it is about."""
    return "\n\n".join(["\n".join(about), *("\n".join(written_case(case)) for case in cases)]) + "\n"


# ------------------------------------------------------------------ reading

def words_of(line):
    """The words of a call behind the program's name."""
    words, place = [], 0
    line = line.rstrip()
    while place < len(line):
        found = WORD.match(line, place)
        if not found:
            raise Unreadable(f"the words {line[place:]!r}")
        words.append(meant(found[1]) if found[1] is not None else found[2].encode("latin-1"))
        place = found.end()
    return words


def piece_of(line):
    """A piece of a text: how often it stands, and what it is."""
    times, _, part = line.partition(" ")
    return meant(part), int(times)


def text_of(head, lines):
    """The name that stands over a text, and the text."""
    if found := re.fullmatch(r"(.*) \(from (\./[^)]*)\)", head):
        return found[1], found[2]
    if head.endswith(PIECES):
        return head.removesuffix(PIECES), [piece_of(line) for line in lines]
    data = "\n".join(lines).encode("latin-1")
    if head.endswith(UNENDED):
        return head.removesuffix(UNENDED), [(data, 1)]
    return head, [(data + b"\n", 1)] if lines else []


def judge_of(lines):
    """What is due of a trace."""
    due = {}
    for line in lines:
        found = re.fullmatch(r"(actions|in any order|ends|answer ([\d.]+)): (.*)", line) or re.fullmatch(r"(actions|in any order)():()", line.rstrip())
        if not found:
            raise Unreadable(f"{line!r} is nothing that is judged")
        key, items = found[1].split(" ")[0] if found[2] else found[1], found[3].split("; ") if found[3] else []
        if JUDGED[key] == "lists":
            due.setdefault(key, []).append(items)
        elif JUDGED[key] == "named":
            due.setdefault(key, {})[found[2]] = items
        else:
            due[key] = items
    return due


def case_of(lines):
    """The case of a block, which begins with its name."""
    if len(lines) < 4 or not lines[2].startswith(CALL) or not re.fullmatch(r"status \d+", lines[3]):
        raise Unreadable(f"the head of '{lines[0]}'")
    case = {"name": lines[0].removeprefix(HEAD), "shows": lines[1], "words": words_of(lines[2].removeprefix(CALL)), "status": int(lines[3].removeprefix(STATUS))}
    places = [place for place, line in enumerate(lines) if line.startswith(TEXT)] + [len(lines)]
    if places[0] != 4:
        raise Unreadable(f"the head of '{lines[0]}'")
    for begin, end in zip(places, places[1:]):
        add_text(case, lines[begin].removeprefix(TEXT), lines[begin + 1:end])
    if ("stdout" in case) == ("judge" in case):
        raise Unreadable(f"'{case['name']}' must have what is due: stdout or judge")
    return case


def add_text(case, head, lines):
    """Adds what stands under a head."""
    if head == "judge":
        case["judge"] = judge_of(lines)
        return
    if head == UNREADABLE:
        case["stdin"] = None
        return
    if head == THREADS:
        if len(lines) != 1 or not re.fullmatch(r"[1-9]\d*", lines[0]):
            raise Unreadable(f"the number of threads of '{case['name']}'")
        case[THREADS] = int(lines[0])
        return
    name, text = text_of(head, lines)
    if name == "stdout":
        case.setdefault("stdout", []).append(text)
    elif name == "stdin":
        case["stdin"] = text
    elif name in case.setdefault("files", {}):
        raise Unreadable(f"two files {name} in '{case['name']}'")
    else:
        case["files"][name] = text


def read(text):
    """The cases of a file."""
    lines = text.removesuffix("\n").split("\n")
    places = [place for place, line in enumerate(lines) if line.startswith(HEAD)] + [len(lines) + 1]
    cases = []
    for begin, end in zip(places, places[1:]):
        if end <= len(lines) and lines[end - 1] != "":
            raise Unreadable(f"no empty line before line {end + 1}")
        cases.append(case_of(lines[begin:end - 1]))
    names = [case["name"] for case in cases]
    if len(set(names)) < len(names):
        raise Unreadable("two cases have one name: " + next(name for name in names if names.count(name) > 1))
    return cases


def bytes_of(folder, text):
    """The bytes of a text of a case that stands in this folder."""
    if isinstance(text, str):
        return (folder / text).read_bytes()
    return b"".join(data * times for data, times in text)
