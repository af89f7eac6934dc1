"""What a definition or a clause stands on, in the files of crates/.

A part is what is read at once: a definition of specs/ with those that are made together with it, a type or a trait of src/, or the clauses
of a call. Of a type it has the fields, and what contracts see of its values; of a trait what contracts name of it.
"""
import dataclasses
import functools
import pathlib
import re

TOP = pathlib.Path(__file__).resolve().parent.parent
CRATES = TOP / "crates"
# A name, or a sign that isn't a bracket or a point.
WORD = re.compile(r"[^\W\d][\w'?]*(?:-F)?|[^\s\w(){}\[\].,;:]+")
USE = re.compile(r"^( *)(?:pub |ghost )*use Rattle\.([a-z_0-9]+)\.specs\.([^\s{;]+?)(?:\.\{([^}]*)\})?(?: as ([^\s;]+))?;?$")
RUST_USE = re.compile(r"^(?:pub )?use ([a-z_0-9]+)((?:::\w+)*?)(?:::\{([^}]*)\}|::(\w+))(?: as \w+)?;", re.M)
DEFINITION = re.compile(r"(?:abbrev pub|unfoldable pub|abbrev|pub data|pub record|data|record|pub) ([^\s:({]+)")
BEGINS = re.compile(r"(?:abbrev|unfoldable|pub data|pub record|data|record|mutual)\b")
TYPE = re.compile(r"^(?:pub(?:\(crate\))? )?(struct|enum|trait) (\w+)", re.M)
CALL = re.compile(r"^( *)(?:pub(?:\(crate\))? )?fn (\w+)", re.M)


@dataclasses.dataclass(eq=False)
class Part:
    """A part: the crate and the file where it stands, its names, and its text. A definition has the names of its constructors and fields,
    and what is given to all in the module around it; a method has the type or trait that it is of. Last are the lines whose own imports
    it sees."""
    crate: str
    file: "File"
    line: int
    names: list
    text: str
    kind: str
    constructors: list = dataclasses.field(default_factory=list)
    fields: list = dataclasses.field(default_factory=list)
    given: str = ""
    owner: str = ""
    around: tuple = (0, -1)

    @property
    def place(self):
        return f"{self.file.path.relative_to(TOP)}:{self.line}"


def words_of(text):
    """The words of a text, each with the one to which it is joined by a point, or with None. Comments and strings are left out."""
    text = re.sub(r'"[^"\n]*"', "", re.sub(r"(--|//).*", "", text))
    before = None
    for match in WORD.finditer(text):
        joined = before and before.end() + 1 == match.start() and text[before.end()] == "."
        yield before[0] if joined else None, match[0]
        before = match


def imported(names):
    """The names of an import: each as it is there, and as it is here."""
    for name in re.split(r",\s*", names.strip().rstrip(",")) if names.strip() else []:
        there, _, here = name.strip().partition(" as ")
        yield there, here or there


def taken_names(match):
    """The names of an import of Rust."""
    return imported(match[4] if match[3] is None else match[3])


def signs(name):
    """What is written of a name whose arguments stand around it."""
    return [sign for sign in name.split("◌") if sign]


class File:
    """A file: its parts, and what its words stand for."""

    def __init__(self, crate, path):
        self.crate, self.path = crate, path
        self.text = path.read_text(encoding="utf-8")
        self.lines = self.text.splitlines()
        self.uses = [(number, *match.groups()) for number, line in enumerate(self.lines, 1) if (match := USE.match(line))]
        self.handed_on = list(re.finditer(r"^pub use Rattle\.([a-z_0-9]+)\.specs\.([^\s{]+)\.\{([^}]*)\}$", self.text, re.M))
        self.parts = list(self.read())

    def scope(self, part):
        """What words stand for in a part: for each a list of parts; and the files that have another name here."""
        found, renamed, kit = {}, {}, {}
        for number, indent, crate, path, names, alias in self.uses:
            if indent and not part.around[0] <= number <= part.around[1]:
                continue
            if names is None and alias and crate in crates():
                renamed[alias] = (crate, path)
            for there, here in imported(names or ""):
                parts = specs_named(crate, path, there) if crate in crates() else []
                for sign in signs(here):
                    if parts:
                        found.setdefault(sign, []).extend(parts)
                    elif crate not in crates():
                        kit[sign] = there
        return found, renamed, kit

    def missing(self):
        """The imported names of this project that stand for nothing here, constants aside."""
        for _, _, crate, path, names, _ in self.uses:
            for there, _ in imported(names or "") if crate in crates() and not path.endswith("TheConstants") else []:
                if not specs_named(crate, path, there):
                    yield there

    def stands_on(self, part):
        """The parts that are named in a part, and the words of the kit."""
        found, renamed, kit = self.scope(part)
        parts, taken = [], set()
        for before, word in words_of(part.given + "\n" + part.text):
            if before in renamed:
                parts += specs_named(*renamed[before], word)
            elif before is None:
                parts += found.get(word, [])
                taken |= {kit[word]} if word in kit else set()
        return [other for other in dict.fromkeys(parts) if other is not part], taken


class Specs(File):
    """A file of specs/."""

    def read(self):
        """Each definition with the comment above it. Modules with parameters stand in one another; what is in them stands further in."""
        block, pending, modules, first = [], [], [], 0
        for number, line in enumerate([*self.lines, "module"], 1):
            while line.strip() and modules and not line.startswith(" " * 2 * len(modules)):
                modules.pop()
            text = line[2 * len(modules):]
            if text.startswith("--") or not text.strip():
                pending = [*pending, text] if text.strip() else [*pending, ""]
            elif not BEGINS.match(text) and not text.startswith(("module", "use ", "pub use ", "pub mod ")):
                block, pending = [*block, *pending, text], []
            else:
                if any(map(BEGINS.match, block)):
                    yield self.part(first, block, given)
                comment = pending[len(pending) - [*reversed(pending), ""].index(""):]
                given, first, block, pending = " ".join(modules), number, [*comment, text], []
                if text.startswith("module"):
                    modules.append(re.sub(r"^module _ | where$", "", text))

    def part(self, line, block, given):
        text = "\n".join(block).rstrip()
        code = [line for line in block if not line.startswith("--")]
        together = "mutual" in code[0].split()[:2]
        names = [match[1] for line in code if (match := DEFINITION.match(line[2:] if together else line)) and (together or line is code[0])]
        part = Part(self.crate, self, line, names, text, "definition", given=given)
        record = False
        for line in code:
            if match := re.match(r" *(?:pub )?(data|record)\b", line):
                record = match[1] == "record"
            if match := re.match(r" +(?:pub )?([^\s:({]+(?: [^\s:({]+)*) :", line):
                (part.fields if record else part.constructors).extend(match[1].split())
        return part

    def scope(self, part):
        found, renamed, kit = super().scope(part)
        for other in self.parts:
            for name in other.names + other.constructors:
                for sign in signs(name):
                    found.setdefault(sign, []).append(other)
        return found, renamed, kit


class Source(File):
    """A file of src/."""

    def read(self):
        for match in TYPE.finditer(self.text):
            yield self.type_part(match)
        for match in CALL.finditer(self.text):
            yield self.call_part(match)

    def number(self, at):
        return self.text.count("\n", 0, at) + 1

    def above(self, at, marks):
        """The lines above that begin with one of the marks."""
        lines = self.text[:at].split("\n")[:-1]
        found = []
        while lines and lines[-1].lstrip().startswith(("#", "//", *marks)) and not lines[-1].startswith("//!"):
            found.insert(0, lines.pop())
        return [line for line in found if not line.lstrip().startswith("#")]

    def closed(self, at):
        """The place behind the bracket that closes the one here."""
        depth = 0
        for match in re.compile(r"//.*|[(\[{]|[)\]}]").finditer(self.text, at):
            depth += {"(": 1, "[": 1, "{": 1, ")": -1, "]": -1, "}": -1}.get(match[0], 0)
            if depth == 0 and not match[0].startswith("//"):
                return match.end()
        return len(self.text)

    def ghosts(self, start, end, kept):
        """The lines between two places that contracts see, with their comments."""
        lines = []
        for match in re.compile(r"^((?: *//.*\n)*)( *)ghost (\w+)\b", re.M).finditer(self.text, start, end):
            if match[3] != "use" and (kept is None or match[3] in kept):
                stop = self.text.find(";", self.closed(self.text.index("{", match.end())) - 1) if "{" in self.text[match.end():end] else end
                lines.append(self.text[match.start():stop + 1])
        return lines

    def type_part(self, match):
        end = re.compile(r"[({;]").search(self.text, match.end())
        stop = end.start() + 1 if end[0] == ";" else self.closed(end.start())
        if end[0] == "(":
            stop = self.text.find(";", stop) + 1
        text = "\n".join([*self.above(match.start(), []), self.text[match.start():stop]])
        part = Part(self.crate, self, self.number(match.start()), [match[2]], text, match[1])
        if match[1] == "trait":
            lines = [self.text[match.start():end.end()], *self.ghosts(end.end(), stop, None), "}"]
            part.text = "\n".join([*self.above(match.start(), []), *lines])
        model = re.search(rf"^impl\b.* Model for {match[2]}\b.*\{{$", self.text, re.M)
        if model:
            close = self.closed(model.end() - 1)
            part.text += "\n\n" + "\n".join([model[0], *self.ghosts(model.end(), close, ["Value", "view", "invariant"]), "}"])
            part.around = self.number(model.start()), self.number(close)
        return part

    def call_part(self, match):
        at, stop = match.end(), None
        clause = re.compile(r"//.*|\b(?:requires|ensures|decreases)\b(?: \w+)? (?=\{)|[(\[{;]")
        while stop is None:
            found = clause.search(self.text, at)
            if found is None or found[0] in "{;":
                stop = found.start() if found else len(self.text)
            elif found[0].startswith("//"):
                at = found.end()
            else:
                at = self.closed(found.end() - 1 if found[0] in "([" else found.end())
        text = "\n".join([*self.above(match.start(), []), self.text[match.start():stop].rstrip()])
        part = Part(self.crate, self, self.number(match.start()), [match[2]], text, "call")
        for begun in re.finditer(r"^(?:impl|(?:pub )?trait)\b(.*)\{$", self.text[:match.start()] if match[1] else "", re.M):
            close = self.closed(begun.end() - 1)
            if close > match.start():
                part.owner = re.findall(r"\w+", re.sub(r"<[^<>]*>", "", begun[1]).split(":")[0])[-1]
                part.around = self.number(begun.start()), self.number(close)
        return part

    def scope(self, part):
        found, renamed, kit = super().scope(part)
        for match in RUST_USE.finditer(self.text):
            crate = self.crate if match[1] in ("crate", "super", "self") else match[1]
            for there, here in taken_names(match):
                if crate in crates() and there != "self":
                    found.setdefault(here, []).extend(types(crate, there))
        for other in self.parts:
            if other.kind != "call":
                found.setdefault(other.names[0], []).append(other)
        if part.owner:
            found["Self"] = found["self"] = found.get(part.owner, [])
        return found, renamed, kit


# ------------------------------------------------------------------ all files

@functools.cache
def crates():
    """The crates of crates.txt, each with its place there."""
    found = {}
    for line in (TOP / "crates.txt").read_text(encoding="utf-8").splitlines():
        if line.strip() and not line.startswith("#"):
            found[line.split(":")[0].split()[0]] = len(found)
    return found


@functools.cache
def specs(crate):
    return {path.stem: Specs(crate, path) for path in sorted((CRATES / crate / "specs").glob("*.antt"))}


@functools.cache
def sources(crate):
    return [Source(crate, path) for path in sorted((CRATES / crate / "src").rglob("*.rt"))]


@functools.cache
def types(crate, name):
    """The types and traits of this name that a crate has, or takes from another one."""
    found = [part for file in sources(crate) for part in file.parts if part.kind not in ("call", "definition") and part.names == [name]]
    for match in (match for file in ([] if found else sources(crate)) for match in RUST_USE.finditer(file.text)):
        if match[0].startswith("pub use") and match[1] in crates() and name in dict(taken_names(match)):
            found += types(match[1], name)
    return found


def specs_named(crate, path, name):
    """The parts that a name of a file of specs/ stands for, or of a type that is declared in src/."""
    pieces = path.split(".")
    if pieces[0] in ("declared", "contracts"):
        return types(crate, next((piece for piece in pieces if piece[0].isupper()), name))
    file = specs(crate).get(pieces[0])
    if file is None and "Lib" in specs(crate):
        taken = re.search(rf"^pub use Rattle\.([a-z_0-9]+)\.specs\.{pieces[0]}$", specs(crate)["Lib"].text, re.M)
        return specs_named(taken[1], path, name) if taken else []
    found = [part for part in file.parts if name in part.names + part.constructors + part.fields] if file else []
    for use in [] if found or not file else file.handed_on:
        if name in dict(imported(use[3])):
            found += specs_named(use[1], use[2], name)
    return found


def called(name):
    """The parts of this name: `NAME`, `TYPE::NAME` or `CRATE::NAME`, with `::CLAUSE` behind a call for one clause of it alone."""
    *before, last = name.split("::")
    found = []
    for crate in crates():
        files = [*specs(crate).values(), *sources(crate)]
        for part in (part for file in files for part in file.parts):
            around = [crate, part.file.path.stem, part.owner]
            if last in part.names + part.constructors and all(word in around for word in before):
                found.append(part)
            elif before and part.kind == "call" and before[-1] in part.names and all(word in around for word in before[:-1]):
                clause = re.search(rf"^ *ensures {re.escape(last)} \{{", part.text, re.M)
                if clause:
                    found.append(one_clause(part, last))
    return found


def one_clause(part, name):
    """A call with one of its clauses alone, and with what it asks for."""
    begins = r"^(?: *//.*\n)* *(?:requires|ensures)\b"
    clauses = re.findall(rf"{begins}(?:.*\n?)*?(?={begins}|\Z)", part.text.partition(f"fn {part.names[0]}")[2], re.M)
    kept = [clause for clause in clauses if re.search(rf"^ *(?:requires\b|ensures {re.escape(name)} )", clause, re.M)]
    return dataclasses.replace(part, text=(part.text[:part.text.index(clauses[0])] + "".join(kept)).rstrip())


def trail(parts):
    """All on which parts stand, and these last, in reading order; and the words of the kit."""
    below, words, waiting = {}, set(), list(parts)
    while waiting:
        part = waiting.pop()
        if part not in below:
            below[part], taken = part.file.stands_on(part)
            words |= taken
            waiting += below[part]
    return ordered(below), sorted(words)


def ordered(below):
    """Parts behind those that they name, as far as these don't name each other: in the order of crates.txt, those of one file together."""
    above = {part: [] for part in below}
    for part, others in below.items():
        for other in others:
            above[other].append(part)
    left = {part: len(others) for part, others in below.items()}
    key = {part: (crates()[part.crate], str(part.file.path), part.line) for part in below}
    waiting = set(below)
    ready = {part for part in below if not left[part]}
    found = []
    while waiting:
        # where none is ready some name each other, and the lowest of all comes first
        last = found[-1].file if found else None
        part = min(ready or waiting, key=lambda part: (part.file is not last, key[part]))
        ready.discard(part)
        waiting.discard(part)
        found.append(part)
        for other in above[part]:
            left[other] -= 1
            if not left[other] and other in waiting:
                ready.add(other)
    return found
