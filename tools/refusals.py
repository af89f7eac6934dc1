"""What stands behind a refusal, beside what docs/LANGUAGE.md says of its number: what may follow, which equation overlaps, which sorts differ, how many of
how many; and all refusals of a text, one after another. `check` is asked of changed texts; else it is worked out from the text.
"""
import data
import specification
from specification import Unreadable, nodes

# How many refusals of one text are looked for.
MOST = 20
# What may follow a token is found by trying: each of these, as it is written and as it is told.
FOLLOWERS = [(word, f"`{word}`") for word in sorted(specification.KEYWORDS - {"behavior"})]
FOLLOWERS += [(symbol, f"`{symbol}`") for symbol in ("[]", "[>", ">>", "|||", "||", "|[", "]|", "->", "=>", "=", ":=", ":", ";", ",", "!", "?", "(", ")", "[", "]", "_")]
FOLLOWERS += [("zq9", "an identifier"), ("9", "a numeral"), ("<+>", "an operation")]


def place_of(text, line, column):
    """The offset of a place."""
    lines = text.split("\n")
    return sum(len(one) + 1 for one in lines[:line - 1]) + column - 1


def told_place(text, begin):
    """A place of the text; None is the library."""
    return "in the library" if begin is None else "at {}:{}".format(*specification.place(text, begin))


def details(number, text, offset, check):
    """Sentences about a refusal of this number at this place."""
    tell = {3: following, 12: unknown_name, 13: no_reading, 14: no_reading, 19: overlap, 22: gates_seen, 23: processes_seen, 24: counts, 25: endings}.get(number)
    try:
        return list(tell(text, offset, check)) if tell else []
    except (Unreadable, RecursionError, LookupError, StopIteration):
        return []


# ------------------------------------------------------------------ one refusal

def following(text, offset, check):
    """What may stand in the place of a token that is refused; and that a word is reserved."""
    word = specification.WORD.match(text, offset)
    if word and word[0].lower() in specification.KEYWORDS:
        yield f"`{word[0]}` is a reserved word: it is no name."
    end = len(text[:offset].split("\n")), len(text[:offset].rpartition("\n")[2]) + 1
    found = []
    for spelled, told in FOLLOWERS:
        answer = check(text[:offset] + spelled)
        if not answer.startswith(f"refused 3 Unexpected {end[0]}:{end[1]} ") and not answer.startswith("refused 1 "):
            found.append(told)
    if found:
        yield f"Here may stand: {', '.join(found)}."


def expression_at(text, offset):
    """The expression that begins at a place, with the content over which it is read and its variables."""
    reader = specification.Reader(text)
    whole = reader.specification()
    for process in whole.all():
        for node in nodes(process.body):
            for field in [*node.fields, *([node.condition] if node.condition else [])]:
                begin = field.begin + (isinstance(field, specification.Condition))
                if field.seen is not None and begin <= offset < field.end:
                    variables = {name: declared.sort.lower() for name, declared in field.seen.items()}
                    end = field.end - isinstance(field, specification.Condition)
                    read = data.premiss_of(text[begin:end])
                    return read, begin, data.Data(text).whole, variables
    types = data.Data(text)
    for one in types.own:
        for begin, end, variables, _, _, _, _ in one.equations:
            if begin <= offset < end:
                return data.equation_sides(text[begin:end]), begin, types.content(one), variables
    raise Unreadable("no expression is there")


def unknown_name(text, offset, _check):
    """Which names there are that are much like one that isn't known, and how a number is written."""
    _, _, content, variables = expression_at(text, offset)
    word = (specification.WORD.match(text, offset) or specification.OPERATION.match(text, offset))[0]
    known = {name: name for name in variables}
    known.update({operation.name: item.text for operation, item in content.operations.items()})
    near = [told for name, told in known.items() if is_near(name, word.lower())]
    if near:
        yield f"Names like it are: {', '.join(sorted(near))}."
    if said := data.numeral(word, content):
        yield said


def is_near(one, other):
    """Whether two names differ by one letter at most that is added, left out or another."""
    if abs(len(one) - len(other)) > 1 or min(len(one), len(other)) < 2:
        return False
    at = next((at for at, (here, there) in enumerate(zip(one, other)) if here != there), min(len(one), len(other)))
    return one[at + 1:] == other[at + 1:] or one[at:] == other[at + 1:] or one[at + 1:] == other[at:]


def grouped(expression):
    """An expression with all its parentheses."""
    inside = [grouped(one) for one in expression.arguments]
    of = "".join(f" of {sort}" for sort in expression.sorts)
    if expression.infix:
        return f"({inside[0]} {expression.token.text} {inside[1]}){of}"
    return expression.token.text + (f"({', '.join(inside)})" if inside else "") + of


def no_reading(text, offset, _check):
    """How an expression is grouped, and the first part of it that has no reading, with what its name may be applied to."""
    sides, begin, content, variables = expression_at(text, offset)
    for side in [one for one in sides if one is not None]:
        chain = [one for one in parts(side) if not content.readings(one, variables)]
        if not chain:
            continue
        part = chain[-1]
        if any(one.infix for one in parts(side)):
            yield f"Infix operations have one level and group to the left: this is read as {grouped(side).strip('()') if not side.infix else grouped(side)[1:-1]}."
            yield "Write parentheses where another grouping is meant."
        has = [sorts_of(one, content, variables) for one in part.arguments]
        given = f", and here stands {' and '.join(has)}" if has else ""
        yield f"`{grouped(part)}` has no reading: {signatures(part.token, content)}{given}."
        return


def parts(expression):
    """An expression and all its parts, an argument behind what it is of."""
    yield expression
    for one in expression.arguments:
        yield from parts(one)


def sorts_of(expression, content, variables):
    """The sorts that an expression may have, in words."""
    found = sorted({content.spelled(one.sort) for one in content.readings(expression, variables)})
    return f"{grouped(expression)} of {' or '.join(found)}"


def signatures(token, content):
    """What the operations of a name are declared as."""
    found = [content.signature(one) for one in content.named(token.key)]
    return "; ".join(f"`{one}`" for one in found) if found else f"{token.text} is a variable"


def overlap(text, offset, _check):
    """With which equation one overlaps, and what keeps equations apart."""
    types = data.Data(text)
    contents = [types.whole, *(types.content(one) for one in types.own)]
    for content in contents:
        equations = list(content.equations.values())
        for at, equation in enumerate(equations):
            if equation.begin != offset:
                continue
            for other in equations[:at]:
                if unify(renamed(other.left, "first "), renamed(equation.left, "second ")):
                    yield f"The other equation stands {told_place(text, other.begin)}."
                    yield "Only `not(..)` of the same premise, or two constants for the same term, keep equations of one left side apart."
                    return


def renamed(reading, before):
    """A reading whose variables have something before their names."""
    if isinstance(reading.head, str):
        return reading._replace(head=before + reading.head)
    return reading._replace(arguments=tuple(renamed(one, before) for one in reading.arguments))


def unify(one, other):
    """Whether two readings without a common variable, each with no variable twice, have a common instance."""
    if isinstance(one.head, str) or isinstance(other.head, str):
        return True
    return one.head == other.head and all(unify(here, there) for here, there in zip(one.arguments, other.arguments))


def node_at(text, offset):
    """The construct at a place that is a call or an operator, or the process whose name stands there; and the reader's whole."""
    whole = specification.read(text)
    for process in whole.all():
        if process.named == offset:
            return process
        for node in nodes(process.body):
            if node.begin == offset and node.kind in ("call", "choice", "parallel", "enable", "disable", "prefix", "hide"):
                return node
    raise Unreadable("there is no construct")


def gates_seen(text, offset, _check):
    """Which gates are seen at a place."""
    whole = specification.read(text)
    process = whole.at(offset)
    gates = [*process.gates, *(gate for node in nodes(process.body) if node.kind == "hide" and node.begin <= offset < node.last for gate in node.gates)]
    yield f"{process.name} sees the gates {', '.join(gates)}." if gates else f"{process.name} sees no gate."


def processes_seen(text, offset, _check):
    """Which processes may be called at a place."""
    found = [one.name for one in specification.read(text).at(offset).scope.processes_seen().values()]
    yield f"Here may be called: {', '.join(found)}." if found else "Here no process may be called."


def counts(text, offset, _check):
    """How many gates and values a call has, and how many the process has."""
    call = node_at(text, offset)
    process = call.scope.find(call.name)
    for what, given, wanted in (("gate", call.gates, process.gates), ("value", call.fields, process.parameters)):
        if len(given) != len(wanted):
            yield f"{process.name} {told_place(text, process.named)} has {told_count(len(wanted), what)}, and this call gives {told_count(len(given), what)}."


def told_count(number, what):
    """A number of things in words."""
    return f"no {what}" if number == 0 else f"{number} {what}{'s' if number > 1 else ''}"


# ------------------------------------------------------------------ how behaviours end

def endings(text, offset, _check):
    """Which sides of an operator end differently, and with which sorts."""
    here, ends = node_at(text, offset), Ends(text)
    if isinstance(here, specification.Process):
        yield f"{here.name} is declared to end {shown(here.ends)}, and its body ends {shown(ends.of(here.body))}."
    elif here.kind == "enable":
        taken = tuple(field.sort for field in here.fields)
        yield f"The left side of `>>` ends {shown(ends.of(here.parts[0]))}, and `accept` takes {', '.join(taken) if taken else 'no value'}."
    else:
        left, right = (shown(ends.of(part)) for part in here.parts)
        yield f"The left side of `{here.name}` ends {left}, and the right side ends {right}."


def shown(sorts):
    """How a behaviour ends, in words."""
    return "never" if sorts is None else f"by exit({', '.join(sorts)})" if sorts else "by exit without values"


class Ends:
    """How the behaviours of a text end: never, which is None, or with values of some sorts."""

    def __init__(self, text):
        self.text, self.content = text, data.Data(text).whole

    def of(self, node):
        """How a behaviour ends."""
        if node.kind == "exit":
            return tuple(field.sort or self.content.sort_of(self.text[field.begin:field.end], {name: one.sort.lower() for name, one in field.seen.items()}) or "?"
                         for field in node.fields)
        if node.kind == "call":
            return node.scope.find(node.name).ends
        if node.kind in ("choice", "disable"):
            left, right = self.of(node.parts[0]), self.of(node.parts[1])
            return right if left is None else left
        if node.kind == "parallel":
            left, right = self.of(node.parts[0]), self.of(node.parts[1])
            return None if None in (left, right) else left
        if node.kind == "stop":
            return None
        return self.of(node.parts[-1])


# ------------------------------------------------------------------ all refusals

def blank(text, begin, end, put=""):
    """A text in which blanks stand in the place of a part, and something at their beginning, on the first line with room for it; all other places stay.
    None where there is no room."""
    lines = [" " * len(line) for line in text[begin:end].split("\n")]
    room = next((at for at, line in enumerate(lines) if len(line) >= len(put)), None)
    if room is None:
        return None
    lines[room] = put + lines[room][len(put):]
    return text[:begin] + "\n".join(lines) + text[end:]


def mended(text, offset):
    """Texts in which what is refused at a place is taken out, the smallest part first; other places stay as they are."""
    try:
        yield from mended_behaviours(text, offset)
    except (Unreadable, RecursionError):
        pass
    yield from mended_equations(text, offset)
    yield from mended_bodies(text, offset)


def mended_behaviours(text, offset):
    """Takes out a field, a condition or a call, or what a process is declared to end with."""
    whole = specification.read(text)
    for process in whole.all():
        found = [node for node in nodes(process.body) if node.begin <= offset < max(node.last, node.end)]
        for node in reversed(found):
            for field in node.fields:
                if node.kind == "prefix" and field.kind == "!" and field.begin <= offset < field.end:
                    yield blank(text, text.rindex("!", 0, field.begin), field.end)
            if node.condition and node.condition.begin <= offset < node.condition.end:
                end = text.index("->", node.condition.end) + 2 if node.kind == "guard" else node.condition.end
                yield blank(text, node.condition.begin, end)
            if node.kind in ("call", "exit"):
                yield blank(text, node.begin, node.end, "stop")
            if node.kind == "prefix" and offset == node.begin and not any(field.kind == "?" for field in node.fields):
                yield blank(text, node.begin, node.end, "i")


def mended_equations(text, offset):
    """Takes out the equation that holds a place, with the `;` behind it: what stands between two `;`, where the equations can't be read."""
    try:
        found = [(begin, end) for one in data.Data(text).own for begin, end, *_ in one.equations]
    except (Unreadable, RecursionError):
        found = between_marks(text, offset)
    for begin, end in found:
        if begin <= offset <= end:
            behind = text.find(";", end)
            yield blank(text, begin, behind + 1 if behind >= 0 and not text[end:behind].strip() else end)


def between_marks(text, offset):
    """What stands between two `;` round a place, if it is behind an `eqns`: from the token behind the first one, or behind an `ofsort` and its sort."""
    found = specification.tokens(text)
    before = [at for at, one in enumerate(found) if one.begin < offset]
    part = next((found[at].key for at in reversed(before) if found[at].key in ("eqns", "formaleqns", "endtype", "opns", "behaviour")), None)
    mark = next((at for at in reversed(before) if found[at].key in (";", "ofsort")), None)
    end = next((one for one in found if one.begin >= offset and one.key in (";", "endtype", "ofsort")), None)
    if part in ("eqns", "formaleqns") and mark is not None and end is not None:
        first = mark + (2 if found[mark].key == "ofsort" else 1)
        if found[first].begin < end.begin:
            yield found[first].begin, end.begin


def mended_bodies(text, offset):
    """Puts `stop` in the place of the body that holds a place, or whose heading does; its `where` part goes last."""
    found = specification.tokens(text)
    begins = [one for one in found if one.key in (":=", "behaviour", "behavior")]
    ends = [one for one in found if one.key in ("where", "endproc", "endspec")]
    before, behind = [one for one in begins if one.end <= offset][-1:], [one for one in begins if one.begin > offset][:1]
    for begin in before + behind:
        if end := next((one for one in ends if one.begin >= begin.end), None):
            if begin in behind or offset < end.begin:
                yield blank(text, begin.end, end.begin, " stop")
    closed = next((one for one in ends if one.key == "endproc" and one.begin >= offset), None)
    if before and closed:
        yield blank(text, before[0].end, closed.begin, " stop")


def all_of(text, check):
    """All refusals of a text that are found: each answer of `check`, where taking out what is refused lets the next one be found."""
    seen, answer = set(), check(text)
    while answer.startswith("refused ") and len(seen) < MOST:
        yield answer
        seen.add(answer.split(" ")[3])
        line, column = map(int, answer.split(" ")[3].split(":"))
        if line == 0:
            return
        offset = place_of(text, line, column)
        for changed in mended(text, offset):
            if changed is None:
                continue
            answer = check(changed)
            if answer.startswith("accepted") or answer.startswith("refused ") and answer.split(" ")[3] not in seen:
                text = changed
                break
        else:
            return
