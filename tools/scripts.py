"""What is wrong with a line of a script (docs/FORMATS.md, "Scripts"): the word and its column. The program says which line it is, and of which kind."""
import re

import data
from specification import Unreadable, tokens


def parted(line):
    """The client of a line, its gate as a token, and its fields: each with its `!` or `?` as a token, and the tokens behind it. `ask` is left out."""
    found = tokens(line)
    if len(found) < 3 or not found[0].text.isdigit() or found[1].key != ":":
        raise Unreadable("a line is `CLIENT: GATE`, `CLIENT: ask GATE`, with a field `!expression` or `?Sort` for each value")
    at = 3 if found[2].key == "ask" and len(found) > 3 and re.match(r"[a-z]", found[3].key) else 2
    fields = []
    for token in found[at + 1:]:
        if token.key in ("!", "?"):
            fields.append((token, []))
        elif not fields:
            raise Unreadable(f"{token.text!r} in column {token.begin + 1} begins no field: a field begins with `!` or `?`")
        else:
            fields[-1][1].append(token)
    return found[0], found[at], fields


def fault(kind, line, whole, content):
    """The column of what is wrong, or 0, and a sentence that says what."""
    try:
        client, gate, fields = parted(line)
    except Unreadable as fault_there:
        column = re.search(r"column (\d+)", str(fault_there))
        return int(column[1]) if column else 0, f"{str(fault_there)[0].upper()}{str(fault_there)[1:]}."
    if kind == "client":
        return client.begin + 1, f"{client.text} is no client: these are 1 to 64."
    if kind == "gate" and gate.text.lower() not in map(str.lower, whole.gates):
        return gate.begin + 1, f"{gate.text} is no gate of {whole.name}: these are {', '.join(whole.gates) or 'none'}."
    for token, behind in fields:
        told = of_field(kind, token, behind, content)
        if told:
            return told
    return 0, ""


def of_field(kind, token, behind, content):
    """What is wrong with a field, or None."""
    if not behind:
        return token.begin + 1, f"Nothing stands behind `{token.text}`."
    if token.key == "?":
        if behind[0].key not in content.sorts:
            return behind[0].begin + 1, f"{behind[0].text} is no sort: these are {sorts_of(content)}."
        return (behind[1].begin + 1, f"{behind[1].text!r} stands behind a sort.") if behind[1:] else None
    for before, one in zip(behind, behind[1:]):
        if before.key == "of" and one.key not in content.sorts:
            return one.begin + 1, f"{one.text} is no sort: these are {sorts_of(content)}."
    reader = data.Expressions(behind)
    try:
        expression = reader.expression()
    except Unreadable as found:
        return behind[min(reader.at, len(behind) - 1)].begin + 1, f"This is no expression: {found}."
    if reader.key():
        return behind[reader.at].begin + 1, f"{behind[reader.at].text!r} stands behind an expression."
    return of_term(expression, content) if kind == "term" else None


def of_term(expression, content):
    """What is wrong with a term, or None: the first name that isn't known, or the first part that hasn't one reading."""
    for one in expression.arguments:
        if told := of_term(one, content):
            return told
    token = expression.token
    if not content.named(token.key):
        return token.begin + 1, " ".join([f"No operation is named {token.text}.", data.numeral(token.text, content)]).rstrip()
    found = content.readings(expression, {})
    if not found:
        return token.begin + 1, f"{token.text} isn't applied as it is declared: {'; '.join(content.signature(one) for one in content.named(token.key))}."
    if len(found) > 1:
        return token.begin + 1, f"{token.text} has several readings, of {' and of '.join(content.spelled(one.sort) for one in found[:2])}: say which by `of`."
    return None


def sorts_of(content):
    """The sorts, as they are declared."""
    return ", ".join(item.text for item in content.sorts.values()) or "none"
