"""Why an offer wasn't taken, and what could have been done in its place: for the answers of a trace, by the text of its specification (tools/offered.py).
And where a trace that is no derivation differs from what its specification does. Nothing of it is proved.
"""
import charts
import specification
import steps
import traces
from offered import Offered

# How many lines of a list are shown, and how many answers of a session beside its end.
SHOWN, ANSWERS = 12, 20
SIDES = ("left", "right")


def joined(text):
    """The lines of a text as one line."""
    return " ".join(text.split())


def listed(items):
    """Words as one text: a, b and c."""
    items = list(items)
    return " and ".join([", ".join(items[:-1]), items[-1]] if len(items) > 1 else items) or "nothing"


def table(rows):
    """Rows with each column but the last as wide as its widest entry."""
    widths = [max((len(row[at]) for row in rows), default=0) for at in range(len(rows[0]) - 1)] if rows else []
    return ["  ".join([*(f"{cell:<{width}}" for cell, width in zip(row, widths)), row[-1]]).rstrip() for row in rows]


class Told:
    """Tells of a specification: its text, its processes and the values of its expressions."""

    def __init__(self, text, values):
        self.text, self.values, self.whole = text, values, specification.read(text)

    def place(self, begin):
        """A place of the text, as line and column."""
        return "{}:{}".format(*specification.place(self.text, begin))

    def where(self, nodes):
        """Where constructs stand, each with its process."""
        return ", ".join(dict.fromkeys(f"{self.place(node.begin)} {self.whole.at(node.begin).name}" for node in nodes))

    def source(self, begin, end):
        """What stands in the text, cut where it is long."""
        return charts.cut(joined(self.text[begin:end]), 60)

    def condition(self, node):
        """A condition with its place."""
        return f"{self.source(node.condition.begin, node.condition.end)} at {self.place(node.condition.begin)}"

    def known(self, nodes):
        """The values of the variables in the conditions of constructs, as ` where x is 0`; empty where none is known."""
        found = [said for node in nodes if (said := self.values.where(node.condition, node.known or {}))]
        return charts.cut(f" where {listed(dict.fromkeys(found))}", 100) if found else ""

    def row(self, offered, one):
        """The row of what could be done: what, where, and on which conditions."""
        asked = [node for node, holds in one.conditions if holds is None]
        told = f"if {listed(map(self.condition, asked))} holds{self.known(asked)}" if asked else ""
        return charts.cut(offered.shown(one), 60), self.where(one.leaves), told

    # ------------------------------------------------------------- what could be done

    def could(self, offered):
        """Rows for what could be done, and for what is refused by conditions."""
        found = [one for one in offered.could if all(holds is not False for _, holds in one.conditions)]
        return cut_rows([self.row(offered, one) for one in found])

    def lacking(self, offered):
        """Rows for what one side could do, and the other couldn't with it."""
        rows = []
        for lack in offered.lacks:
            others = [f"{offered.shown(one)} at {self.where(one.leaves)}" for one in lack.others]
            said = f"has {listed(others)}" if others else f"does no {lack.could.gate}"
            other, operator = SIDES[1 - lack.side], lack.operator
            rows.append((charts.cut(offered.shown(lack.could), 60), self.where(lack.could.leaves),
                         f"the {other} side of {operator.name} at {self.place(operator.begin)} {said}"))
        return cut_rows(rows)

    def refused(self, offered):
        """Rows for what stands behind conditions that don't hold."""
        pairs = [(node, one) for node, inside in offered.closed for one in inside]
        pairs += [(node, one) for one in offered.could for node, holds in one.conditions if holds is False]
        return cut_rows([(charts.cut(offered.shown(one), 60), self.where(one.leaves), f"{self.condition(node)} doesn't hold{self.known([node])}")
                         for node, one in pairs])

    def state(self, offered):
        """The lines that tell what could be done in a state."""
        for head, rows in (("could be done then:", self.could(offered)), ("has no partner:", self.lacking(offered)), ("is refused:", self.refused(offered))):
            if rows:
                yield f"  {head}"
                yield from ("    " + line for line in table(rows))

    # ------------------------------------------------------------- offers

    def near(self, offered, text):
        """Sentences that say what stands between an offer and what could be done."""
        gate, fields = traces.fields_of(text)
        here = [one for one in offered.could if one.gate.lower() == gate.lower()]
        for one in here:
            yield from self.differs(offered, one, fields)
        for lack in offered.lacks:
            if lack.gate and lack.gate.lower() == gate.lower():
                yield (f"{offered.shown(lack.could)} at {self.where(lack.could.leaves)} finds no partner on the {SIDES[1 - lack.side]} side of "
                       f"{lack.operator.name} at {self.place(lack.operator.begin)}")
        for node, inside in offered.closed:
            if any(one.gate.lower() == gate.lower() for one in inside):
                where = self.values.where(node.condition, node.known or {})
                yield f"{gate} stands behind the guard {self.condition(node)}, which doesn't hold{' where ' + where if where else ''}"

    def differs(self, offered, one, fields):
        """Sentences that say why an action of the behaviour doesn't meet an offer."""
        what = f"{' '.join([one.gate, *map(offered.place, one.places)])} at {self.where(one.leaves)}"
        mine, theirs = offered.sorts(one), [self.sort(field) for field in fields]
        if len(mine) != len(theirs):
            yield f"{what} has {count(len(mine))}{sorts_of(mine)}, and the offer has {count(len(theirs))}{sorts_of(theirs)}"
            return
        if any("?" not in (here, there) and here.lower() != there.lower() for here, there in zip(mine, theirs)):
            yield f"{what} takes {listed(mine)}, and the offer gives {listed(theirs)}"
            return
        chosen, said = {}, False
        for field, place in zip(fields, one.places):
            given = next((value for here, node in place if (value := offered.told(here, node))), None)
            wanted = field[1:] if field.startswith("!") else None
            if given and wanted and given != wanted:
                said = True
                yield f"{what} gives {charts.cut(given, 60)}, and the offer has {charts.cut(wanted, 60)}"
            for here, node in place:
                if here.kind == "?" and here.name and (given or wanted):
                    chosen.setdefault(node, {})[here.name.lower()] = self.values.of_text(given or wanted, here.sort)
        for node, holds in one.conditions:
            known = {**(node.known or {}), **chosen.get(node, {})}
            if holds is None:
                holds = self.values.holds(node.condition, known)
            if holds is not True:
                said, where = True, self.values.where(node.condition, known)
                yield (f"{what} asks {self.condition(node)}, which {'does not' if holds is False else 'may not'} hold"
                       f"{' where ' + where if where else ''}")
        open_here = [offered.source(here) for place in one.places for here, node in place if here.kind == "!" and not offered.told(here, node)]
        if open_here:
            yield f"{what}: which value {listed(dict.fromkeys(open_here))} gives isn't known here"
        elif not said:
            yield f"{what} fits, as far as is seen here"

    def sort(self, field):
        """The sort of a field of an offer, or `?`."""
        return field[1:] if field.startswith("?") else self.values.content.sort_of(field[1:], {}) or "?"


def count(number):
    """A number of values."""
    return {0: "no value", 1: "1 value"}.get(number, f"{number} values")


def sorts_of(sorts):
    """Sorts in parentheses, if there are some."""
    return f" ({listed(sorts)})" if sorts else ""


def cut_rows(rows):
    """Rows without those that stand there already, and no more than are shown."""
    rows = list(dict.fromkeys(rows))
    return rows[:SHOWN] + ([(f".. and {len(rows) - SHOWN} more", "", "")] if len(rows) > SHOWN else [])


# ------------------------------------------------------------------ the answers of a trace

MEANINGS = {"stall": "each open client waits, nothing unseen is left, and nothing meets a pending offer: all are withdrawn",
            "deadlock": "the behaviour has no step, whatever is offered", "notnow": "no step meets the offer now",
            "beyond": "only a value that isn't looked at might give a step", "ended": "the last action was exit",
            "waiting": "the behaviour has a step, and nobody has taken it", "exit": "the behaviour has terminated"}


def is_told(entry):
    """Whether an entry is one of the answers that are explained."""
    return entry.kind == "stall" or entry.kind in ("reply", "end") and entry.text.split(" ")[0] in ("deadlock", "notnow", "beyond", "waiting")


def answers(entries, text, values):
    """The lines that explain the answers of a trace, and its end."""
    told, followed, offers, number = Told(text, values), steps.Followed(specification.read(text), values), {}, 0
    for entry in entries:
        if entry.kind in ("pend", "ask"):
            offers[entry.offers[0]] = entry.text
        elif entry.kind == "act":
            charts.acted(followed, entry)
        elif is_told(entry):
            number += 1
            if entry.kind == "end" and number > ANSWERS + 1:
                yield f".. and {number - ANSWERS - 1} more answers, which aren't shown"
            if number <= ANSWERS or entry.kind == "end":
                yield from answer(told, followed, entry, offers)


def answer(told, followed, entry, offers):
    """The lines that explain an answer."""
    offered = Offered(followed.state, told.values)
    word = "stall" if entry.kind == "stall" else entry.text.split(" ")[0]
    names = "".join(f" {client}.{number}" for client, number in entry.offers)
    yield f"line {entry.line}: {entry.kind}{names}{'' if entry.kind == 'stall' else ' ' + charts.cut(entry.text, 60)}"
    yield f"  {MEANINGS[word]}"
    for offer in entry.offers:
        said = list(dict.fromkeys(told.near(offered, offers[offer])))
        gate = offers[offer].split(" ")[0]
        yield f"  {offer[0]}.{offer[1]} {charts.cut(offers[offer], 60)}: {'' if said else f'no part could do {gate} then'}".rstrip()
        yield from (f"    {one}" for one in said[:SHOWN] + ([f".. and {len(said) - SHOWN} more"] if len(said) > SHOWN else []))
    if word == "beyond" and entry.kind == "reply":
        yield from marks(told, followed, entry.text.partition(" ")[2])
    yield from told.state(offered)


def marks(told, followed, text):
    """The lines that say where the marks of a beyond tree stand."""
    try:
        done = steps.Step(followed.state, traces.tree_of(text), followed.whole)
    except (steps.Unfit, traces.Unreadable):
        return
    for rule in done.rules:
        chosen = [field for field in rule.node.fields if field.kind == "?"]
        for field, value in zip(chosen, rule.tree.values):
            if value == "?":
                yield (f"  ? stands for {field.name or 'a value'} of {field.sort} at {told.place(rule.node.begin)}: a greater --values looks at more of them, "
                       "and an offer may name one")


# ------------------------------------------------------------------ traces that are no derivation

def difference(entries, text, values, line):
    """The lines that say what differs at the first line of a trace that isn't possible."""
    told, followed, offers = Told(text, values), steps.Followed(specification.read(text), values), {}
    for entry in entries:
        if entry.kind in ("pend", "ask"):
            offers[entry.offers[0]] = entry.text
        if entry.line == line:
            return list(differing(told, followed, entry, offers)) if entry.kind == "act" else []
        if entry.kind == "act":
            followed.step(entry.tree)
    return []


def differing(told, followed, entry, offers):
    """The lines that say what differs in an action."""
    try:
        done = steps.Step(followed.state, entry.tree, followed.whole, told.values)
    except steps.Unfit as fault:
        yield f"The tree doesn't fit: {fault}."
        if fault.node is not None:
            rules = [rule for rule, kind in steps.CONSTRUCTS.items() if kind == fault.node.kind]
            end = fault.node.end if fault.node.end > fault.node.begin else fault.node.begin + 20
            yield f"There stands {told.source(fault.node.begin, end)} at {told.where([fault.node])}; the rules of it are {listed(rules)}."
        yield from told.state(Offered(followed.state, told.values))
        return
    gate, fields = traces.fields_of(entry.text)
    if done.action.gate.lower() != gate.lower():
        yield f"By this tree the behaviour does {done.action.gate}, and the line has {gate}."
    if len(done.action.values) != len(fields):
        yield f"By this tree the action has {count(len(done.action.values))}, and the line has {count(len(fields))}."
    for number, (mine, theirs) in enumerate(zip(done.action.values, fields), 1):
        if mine is not None and mine != theirs[1:]:
            yield f"By this tree value {number} is {mine}, and the line has {theirs[1:]}."
    for offer in entry.offers:
        if offer not in offers:
            yield f"There is no offer {offer[0]}.{offer[1]} before this line."
        elif not meets(told, entry.text, offers[offer]):
            yield f"The offer {offer[0]}.{offer[1]} is {offers[offer]}, which this action doesn't meet."


def meets(told, action, offer):
    """Whether an action meets an offer, as far as it is known."""
    (gate, fields), (other, offered) = traces.fields_of(action), traces.fields_of(offer)
    return gate.lower() == other.lower() and len(fields) == len(offered) and all(
        mine == theirs if theirs.startswith("!") else told.sort(mine) in ("?", theirs[1:]) for mine, theirs in zip(fields, offered))
