"""Follows the trees of a trace through a specification (docs/SEMANTICS.md): which construct each rule is of, what is left of the behaviour, and
which of its parts take part in an action. A tree says all that there is to choose; the values of variables are known where they are asked for
(tools/values.py).

Where two sides of a parallel composition stand, each side is a Part of its own. Without a specification parts are told apart by the way to
them through the rules of parallel composition.
"""
from collections import namedtuple

from specification import Node

# A rule of a tree: how deep it stands, its tree, and the construct that it is of, or None where there is no specification.
Rule = namedtuple("Rule", "depth tree node")
# What an action is: its gate, `i` or `exit`, and its values, None where the trace doesn't tell one.
Action = namedtuple("Action", "gate values")
LEAVES = {"pre": "prefix", "int": "internal", "exit": "exit"}
CONSTRUCTS = {**LEAVES, "chl": "choice", "chr": "choice", "val": "value", "gate": "gates", "guard": "guard", "let": "let", "parl": "parallel",
              "parr": "parallel", "both": "parallel", "hide": "hide", "pass": "hide", "enstep": "enable", "enend": "enable",
              "disstep": "disable", "disend": "disable", "distake": "disable", "call": "call", "rel": "relabel"}
STATIC = {"hide", "relabel", "let", "guard", "enable", "disable", "value"}


class Unfit(ValueError):
    """A tree isn't one of the behaviour: why, and at which construct."""

    def __init__(self, why, node=None):
        super().__init__(why)
        self.node = node


class Part:
    """A part of the behaviour that acts: a side of a parallel composition, or the whole."""

    def __init__(self, above=None, node=None, way=""):
        self.above, self.node, self.way, self.below = above, node, way, []
        if above is not None:
            above.below.append(self)

    def depth(self):
        """How many parts stand round this one."""
        return 0 if self.above is None else self.above.depth() + 1


def relabelled(names, node, begin):
    """What is left under a relabelling, tidied at its top."""
    while node.kind == "relabel":
        names = {**names, **{gate: names.get(image.lower(), image) for gate, image in node.gates.items()}}
        node = node.parts[0]
    if node.kind == "call":
        made = node.with_gates(tuple(names.get(gate.lower(), gate) for gate in node.gates))
        made.parts, made.sides = (), None
        return made
    return Node("relabel", begin, (node,), names)


def unfolded(call, values=None):
    """The body of the process that is called, relabelled."""
    process, made = call.scope.find(call.name), call.parts[0] if call.parts else None
    if made is None:
        names = {gate.lower(): actual for gate, actual in zip(process.gates, call.gates)}
        made = Node("relabel", call.begin, (process.body,), names, "call")
    if values and process.parameters and not (made.known and None not in made.known.values()):
        return made.knowing({one.name.lower(): values.value(given._replace(sort=one.sort), call.known or {})
                             for one, given in zip(process.parameters, call.fields)})
    return made


def known_in(node, values):
    """The values of the variables that a construct gives to its part: those that it has, and those that it makes."""
    if values and node.kind == "let":
        return {**(node.known or {}), **{one.name.lower(): values.value(one, node.known or {}) for one in node.fields}}
    return node.known


def part_of(node, at, values=None):
    """A part of a construct, with the values of variables that are known there."""
    return node.parts[at].knowing(known_in(node, values if at == 0 else None))


def with_gate(node, at):
    """The part of a choice of a gate, for the gate at this place of its list."""
    return Node("relabel", node.begin, (part_of(node, 0),), {node.name.lower(): node.gates[at]}, "choice")


def sides_of(node, part):
    """The parts of the two sides of a parallel composition that stands in this part."""
    if node.sides is None:
        node.sides = tuple(Part(part, side, part.way + letter) for side, letter in zip(node.parts, "lr"))
    return node.sides


def settled(node, part, values=None):
    """The behaviour with parts for all parallel compositions that stand in it now, calls looked into."""
    if node.settled:
        return node
    if node.kind == "parallel":
        made = node.with_parts(*node.parts)
        made.parts = tuple(settled(part_of(node, at), below, values) for at, below in enumerate(sides_of(made, part)))
    elif node.kind == "call":
        made = node.with_parts(settled(unfolded(node, values), part, values))
    elif node.kind in STATIC:
        made = node.with_parts(settled(part_of(node, 0, values), part, values), *node.parts[1:])
    else:
        made = node.with_parts(*node.parts)
    made.settled = True
    return made


def standing(node, part):
    """The parts that stand in a settled behaviour, from the left."""
    while node.kind in STATIC or node.kind == "call":
        node = node.parts[0]
    if node.kind != "parallel":
        return [part]
    return [below for side, sided in zip(node.parts, node.sides) for below in standing(side, sided)]


def waiting(node):
    """The constructs that stand in a settled behaviour, from the left, one for each part."""
    while node.kind in STATIC or node.kind == "call":
        node = node.parts[0]
    if node.kind != "parallel":
        return [node]
    return [below for side in node.parts for below in waiting(side)]


def filled(node, chosen, values):
    """The values of an action as texts: those that are chosen, and those of expressions where they are known, else None."""
    rest = iter(chosen)
    return tuple(next(rest, None) if field.kind == "?" else told(field, node, values) for field in node.fields)


def told(field, node, values):
    """The value of an expression as a text, where it is known."""
    found = values.value(field, node.known or {}) if values else None
    return values.spelled(found) if found else None


def merged(left, right):
    """The values of both sides of an action together."""
    return tuple(one if one is not None else other for one, other in zip(left, right))


def see_agreement(node, left, right):
    """Sees that two sides do the same action, as far as it is known."""
    if left.gate.lower() != right.gate.lower() or len(left.values) != len(right.values):
        raise Unfit(f"the left side does {left.gate} with {len(left.values)} values, and the right side {right.gate} with {len(right.values)}", node)
    for one, other in zip(left.values, right.values):
        if None not in (one, other) and one != other:
            raise Unfit(f"the left side gives {one}, and the right side {other}", node)


class Step:
    """An action that a behaviour does by a tree: its rules, who takes part, what is hidden, and what is left."""

    def __init__(self, node, tree, part, values=None):
        self.rules, self.parts, self.hidden, self.values = [], [], None, values
        self.left, self.action = self.go(node, tree, part, 0)

    def go(self, node, tree, part, depth):
        """What is left of a behaviour by a tree, and its action."""
        if node.kind != CONSTRUCTS[tree.rule]:
            raise Unfit(f"{tree.rule} isn't a rule of this construct", node)
        self.rules.append(Rule(depth, tree, node))
        if node.condition and self.values:
            self.see(node, self.chosen(node, tree))
        if tree.rule in LEAVES:
            self.parts.append(part)
            action = Action(node.name, filled(node, tree.values, self.values))
            return (node.parts[0].knowing(self.chosen(node, tree)) if node.parts else Node("stop", node.begin)), action
        return getattr(self, "by_" + node.kind)(node, tree, part, depth + 1)

    def see(self, node, known):
        """Sees that a condition holds, as far as that is known."""
        if self.values.holds(node.condition, known) is False:
            where = self.values.where(node.condition, known)
            raise Unfit(f"{self.values.text[node.condition.begin:node.condition.end]} doesn't hold{', where ' + where if where else ''}", node)

    def chosen(self, node, tree):
        """The values of variables behind a construct that chooses some."""
        if not self.values:
            return None
        made, rest = dict(node.known or {}), iter(tree.values)
        for field in node.fields:
            if field.kind == "?":
                made[field.name.lower()] = self.values.of_text(next(rest, ""), field.sort)
        return made

    def below(self, node, tree, part, depth):
        """What the first part of a construct does by the part of a tree."""
        return self.go(part_of(node, 0, self.values), tree.parts[0], part, depth)

    def by_choice(self, node, tree, part, depth):
        """`[]`: the other side is lost."""
        return self.go(part_of(node, int(tree.rule == "chr")), tree.parts[0], part, depth)

    def by_gates(self, node, tree, part, depth):
        """`choice g in ..`: the gate of the tree's number."""
        number = int(tree.values[0])
        if not 1 <= number <= len(node.gates):
            raise Unfit("there is no such gate", node)
        return self.go(with_gate(node, number - 1), tree.parts[0], part, depth)

    by_guard = by_let = below

    def by_value(self, node, tree, part, depth):
        """`choice x:S`: the value of the tree."""
        return self.go(node.parts[0].knowing(self.chosen(node, tree)), tree.parts[0], part, depth)

    def by_parallel(self, node, tree, part, depth):
        """Parallel composition: the left side, the right side, or both."""
        sides, made = sides_of(node, part), list(node.parts)
        acting = {"parl": (0,), "parr": (1,), "both": (0, 1)}[tree.rule]
        actions = []
        for side, below in zip(acting, tree.parts):
            made[side], action = self.go(part_of(node, side), below, sides[side], depth)
            actions.append(action)
        is_met = actions[0].gate != "i" and (actions[0].gate == "exit" or node.name == "||" or actions[0].gate.lower() in {gate.lower() for gate in node.gates})
        if is_met != (len(actions) == 2):
            raise Unfit(f"{actions[0].gate} is {'' if is_met else 'not '}an action of both sides together", node)
        if is_met:
            see_agreement(node, *actions)
        values = merged(actions[0].values, actions[1].values) if is_met else actions[0].values
        return node.with_parts(*made), Action(actions[0].gate, values)

    def by_hide(self, node, tree, part, depth):
        """`hide`: an action at its gates turns internal."""
        left, action = self.below(node, tree, part, depth)
        if (action.gate.lower() in {gate.lower() for gate in node.gates}) != (tree.rule == "hide"):
            raise Unfit(f"{action.gate} is {'not ' if tree.rule == 'hide' else ''}hidden here", node)
        return node.with_parts(left), self.inside(action) if tree.rule == "hide" else action

    def inside(self, action):
        """The internal action, in the place of one that can't be seen."""
        self.hidden = action
        return Action("i", ())

    def by_enable(self, node, tree, part, depth):
        """`>>`: its left side acts, or has terminated."""
        left, action = self.below(node, tree, part, depth)
        if tree.rule == "enend":
            return part_of(node, 1).knowing(self.accepted(node, action)), self.inside(action)
        return node.with_parts(left, node.parts[1]), action

    def accepted(self, node, action):
        """The values of the variables that take those of a termination."""
        if not self.values:
            return None
        return {**(node.known or {}), **{field.name.lower(): self.values.of_text(value, field.sort) if value else None
                                         for field, value in zip(node.fields, action.values)}}

    def by_disable(self, node, tree, part, depth):
        """`[>`: a side acts."""
        left, action = self.go(part_of(node, int(tree.rule == "distake")), tree.parts[0], part, depth)
        return (node.with_parts(left, node.parts[1]) if tree.rule == "disstep" else left), action

    def by_call(self, node, tree, part, depth):
        """A call: the body acts."""
        return self.go(unfolded(node, self.values), tree.parts[0], part, depth)

    def by_relabel(self, node, tree, part, depth):
        """A relabelling: the gate is renamed."""
        left, action = self.below(node, tree, part, depth)
        gate = node.gates.get(action.gate.lower(), action.gate)
        return relabelled(node.gates, left, node.begin), Action(gate, action.values)


class Followed:
    """A specification on the way through a trace; with its Values what variables have is known."""

    def __init__(self, specification, values=None):
        self.whole, self.values = Part(None, specification.body, ""), values
        self.state = settled(specification.body, self.whole, values)

    def standing(self):
        """The parts that stand now."""
        return standing(self.state, self.whole)

    def step(self, tree):
        """Does an action by a tree."""
        done = Step(self.state, tree, self.whole, self.values)
        self.state = settled(done.left, self.whole, self.values)
        return done


class Ways:
    """The parts of a behaviour that nothing is known of but the trees of a trace."""

    def __init__(self):
        self.parts = {"": Part(None, None, "")}
        self.whole = self.parts[""]

    def standing(self):
        """The parts that are known so far."""
        return list(self.parts.values())

    def at(self, way):
        """The part at the end of a way."""
        for end in range(1, len(way) + 1):
            if way[:end] not in self.parts:
                self.parts[way[:end]] = Part(self.parts[way[:end - 1]], None, way[:end])
        return self.parts[way]

    def step(self, tree):
        """Does an action by a tree: who takes part is at the ends of its ways."""
        rules, parts, rest = [], [], [(tree, "", 0)]
        while rest:
            now, way, depth = rest.pop()
            rules.append(Rule(depth, now, None))
            if not now.parts:
                parts.append(self.at(way))
            turns = {"parl": "l", "parr": "r", "both": "lr"}.get(now.rule, ("",))
            rest += reversed([(below, way + turn, depth + 1) for below, turn in zip(now.parts, turns)])
        return namedtuple("Done", "rules parts hidden")(rules, parts, None)

