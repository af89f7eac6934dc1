"""What a behaviour could do next, as its text has it: at which gates and with which fields, where, and on which conditions; which actions of one side
have no partner on the other; and what stands between an offer and them. Nothing of it is proved: where a value isn't known, what depends on it may be.
"""
from collections import namedtuple

import steps
from steps import part_of

# What could be done: the gate, `i` or exit; for each place of its values the fields there, each with the construct that it is of; the constructs that
# act; and the conditions round them, each as (construct, whether it holds). hidden: the same as it is under what makes it internal, or None.
Could = namedtuple("Could", "gate places leaves conditions hidden")
# An action that one side of a parallel composition could do, and the other side can't with it: what it is, the operator, the side that could, what the
# other side could do at the gate with other fields, and the gate as the whole behaviour has it, or None where it is hidden.
Lack = namedtuple("Lack", "could operator side others gate")
# More that meet than these aren't told apart.
MOST = 400


def acting(rules):
    """Where what acts by rules stands in the text, as ranges."""
    return sorted({(rule.node.begin, max(rule.node.end, rule.node.begin + 1)) for rule in rules if rule.tree.rule in steps.LEAVES})


def waits(state, offered):
    """Where parts of a behaviour wait in the text, as ranges: what stands in each, and what could be done."""
    found = {(node.begin, max(node.end, node.begin + 1)) for node in steps.waiting(state) if node.kind != "choice"}
    return sorted(found | {(node.begin, node.end) for one in offered.could for node in one.leaves})


class Offered:
    """What a behaviour could do, and what lacks a partner; `closed` are guards that don't hold, with what stands behind each."""

    def __init__(self, state, values):
        self.values, self.lacks, self.closed = values, [], []
        self.could = self.of(state)

    def of(self, node):
        """What a construct could do: nothing where it takes a value of a sort that has none."""
        if any(field.kind == "?" and field.sort.lower() not in self.values.inhabited for field in node.fields) and node.kind in ("prefix", "exit", "value"):
            return []
        reads = {"stop": lambda _: [], "prefix": self.action, "exit": self.action, "internal": self.action, "choice": self.both, "disable": self.both,
                 "guard": self.guard, "gates": self.gates, "parallel": self.parallel, "hide": self.hide, "enable": self.enable, "call": self.call,
                 "relabel": self.relabel}
        return reads.get(node.kind, self.below)(node)

    def below(self, node):
        """What the first part of a construct could do."""
        return self.of(part_of(node, 0, self.values))

    def both(self, node):
        """What both sides of a choice or a disabling could do."""
        return self.of(part_of(node, 0)) + self.of(part_of(node, 1))

    def action(self, node):
        """An action, a termination or an internal action."""
        conditions = ((node, self.values.holds(node.condition, node.known or {})),) if node.condition else ()
        return [Could(node.name, tuple(((field, node),) for field in node.fields), (node,), conditions, None)]

    def guard(self, node):
        """What stands behind a guard, unless that doesn't hold."""
        holds = self.values.holds(node.condition, node.known or {})
        if holds is False:
            inside = Offered(part_of(node, 0), self.values)
            self.closed.append((node, inside.could))
            return []
        return [one._replace(conditions=((node, holds), *one.conditions)) for one in self.of(part_of(node, 0))]

    def gates(self, node):
        """A choice of a gate: the same for each."""
        return [one for at in range(len(node.gates)) for one in self.of(steps.with_gate(node, at))]

    def call(self, node):
        """What the body of a process could do."""
        return self.of(steps.unfolded(node, self.values))

    def relabel(self, node):
        """The same at other gates."""
        before = len(self.lacks)
        found = self.below(node)
        self.lacks[before:] = [lack._replace(gate=lack.gate and node.gates.get(lack.gate.lower(), lack.gate)) for lack in self.lacks[before:]]
        return [one._replace(gate=node.gates.get(one.gate.lower(), one.gate)) for one in found]

    def hide(self, node):
        """At hidden gates it is internal."""
        hidden, before = {gate.lower() for gate in node.gates}, len(self.lacks)
        found = self.below(node)
        self.lacks[before:] = [lack._replace(gate=None) if lack.gate and lack.gate.lower() in hidden else lack for lack in self.lacks[before:]]
        return [Could("i", (), one.leaves, one.conditions, one) if one.gate.lower() in hidden else one for one in found]

    def enable(self, node):
        """On the left of `>>` a termination is internal."""
        return [Could("i", (), one.leaves, one.conditions, one) if one.gate == "exit" else one for one in self.below(node)]

    def parallel(self, node):
        """What either side could do alone, and both together."""
        sides = [self.of(part_of(node, 0)), self.of(part_of(node, 1))]
        gates = {gate.lower() for gate in node.gates} | {"exit"}
        together = [[one for one in side if one.gate == "exit" or one.gate != "i" and (node.name == "||" or one.gate.lower() in gates)] for side in sides]
        found = [one for side, met in zip(sides, together) for one in side if one not in met]
        for at, (mine, other) in enumerate((together, together[::-1])):
            for one in mine:
                others = [two for two in other if two.gate.lower() == one.gate.lower()]
                meeting = [made for two in others if (made := self.meeting(one, two))]
                if not meeting:
                    self.lacks.append(Lack(one, node, at, others, one.gate))
                elif at == 0:
                    found += meeting
        return found[:MOST]

    def meeting(self, one, other):
        """Both actions together, or None where their fields can't be the same."""
        if len(one.places) != len(other.places):
            return None
        if any(not self.may_agree(here, there) for here, there in zip(one.places, other.places)):
            return None
        return Could(one.gate, tuple(here + there for here, there in zip(one.places, other.places)), one.leaves + other.leaves,
                     one.conditions + other.conditions, None)

    def may_agree(self, here, there):
        """Whether two places may have one value."""
        sorts = {self.values.sort(field) for field, _ in here + there} - {None}
        known = {value for field, node in here + there if (value := self.told(field, node))}
        return len(sorts) <= 1 and len(known) <= 1

    def told(self, field, node):
        """The value that a field gives, as a text, or None where it gives none that is known."""
        return steps.told(field, node, self.values) if field.kind == "!" else None

    # -------------------------------------------------------------- texts

    def source(self, field):
        """A field as it stands in the text."""
        if field.kind == "!":
            return "!" + " ".join(self.values.text[field.begin:field.end].split())
        return f"?{field.name}:{field.sort}" if field.name else f"?{field.sort}"

    def place(self, fields):
        """A place of an action as a text: the value that is given, or else what stands there."""
        values = [value for field, node in fields if (value := self.told(field, node))]
        given = [field for field, _ in fields if field.kind == "!"]
        return f"!{values[0]}" if values else self.source((given or [field for field, _ in fields])[0])

    def shown(self, one):
        """What could be done as a text; in parentheses what is internal."""
        if one.hidden:
            return f"i ({self.shown(one.hidden)})"
        return " ".join([one.gate, *map(self.place, one.places)])

    def sorts(self, one):
        """The sorts of the places of an action, as they are declared; `?` where one isn't known."""
        found = [next((sort for field, _ in place if (sort := self.values.sort(field))), None) for place in one.places]
        return [self.values.content.spelled(sort) if sort else "?" for sort in found]
