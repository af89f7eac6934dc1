"""Which processes of a specification meet at which gates, as a chart: a column for each process that stands in its behaviour and one for the environment,
and a line for each gate and all who act there together. Processes that are called inside of others aren't looked into, unless these only put them together.
"""
import charts
import specification
import steps
from charts import Column, Row

# Behaviours that put others together, and more ways to meet at one gate than these aren't drawn.
TOGETHER, MOST = {"parallel", "hide", "relabel"}, 64


class Meetings:
    """The processes that stand in a behaviour, and who meets at which gates."""

    def __init__(self, text):
        self.whole, self.leaves = specification.read(text), []
        self.hidden = []
        self.met = self.groups(self.whole.body, {gate.lower(): gate for gate in self.whole.gates}, ())

    def groups(self, node, names, calls):
        """For each gate, in small letters of its name outside, the groups of processes that act there together."""
        if node.kind == "relabel":
            return self.groups(node.parts[0], {**names, **{gate: names.get(image.lower(), image) for gate, image in node.gates.items()}}, calls)
        if node.kind == "hide":
            met = self.groups(node.parts[0], {**names, **{gate.lower(): gate for gate in node.gates}}, calls)
            self.hidden += [(gate, met.pop(gate, [])) for gate in node.gates]
            return met
        if node.kind == "parallel":
            return self.parallel(node, names, calls)
        if node.kind == "call":
            process = node.scope.find(node.name)
            if process not in calls and process.body.kind in TOGETHER:
                inner = {gate.lower(): names.get(actual.lower(), actual) for gate, actual in zip(process.gates, node.gates)}
                return self.groups(process.body, inner, (*calls, process))
        return self.leaf(node, names)

    def leaf(self, node, names):
        """A process that stands by itself, with the gates that it has."""
        gates = node.gates if node.kind == "call" else [one.name for one in specification.nodes(node) if one.kind == "prefix"] + [
            gate for one in specification.nodes(node) if one.kind == "call" for gate in one.gates]
        self.leaves.append(node)
        return {names.get(gate.lower(), gate): [(len(self.leaves) - 1,)] for gate in gates}

    def parallel(self, node, names, calls):
        """At a gate at which both sides meet each group of the left side acts with each of the right side."""
        left, right = (self.groups(side, names, calls) for side in node.parts)
        gates = {names.get(gate.lower(), gate).lower() for gate in node.gates}
        made = {}
        for gate in dict.fromkeys([*left, *right]):
            if node.name == "||" or gate.lower() in gates:
                made[gate] = [(*one, *other) for one in left.get(gate, []) for other in right.get(gate, [])][:MOST]
            else:
                made[gate] = (left.get(gate, []) + right.get(gate, []))[:MOST]
        return made


def chart_of(text):
    """The chart of who meets at which gates."""
    found = Meetings(text)
    names = [charts.name_of(steps.Part(steps.Part(), leaf), found.whole.name)[0] for leaf in found.leaves]
    columns = [Column("environment", "whoever uses the specification")]
    for at, name in enumerate(names):
        shown = f"{name} {names[:at + 1].count(name)}" if names.count(name) > 1 else name
        columns.append(Column(charts.cut(shown, charts.NAME), name))
    looks, rows = "|" * len(columns), []
    for gate, groups, seen in [(gate, groups, True) for gate, groups in found.met.items()] + [(gate, groups, False) for gate, groups in found.hidden]:
        for group in groups:
            joined = [0] * seen + [1 + at for at in group]
            rows.append(Row("action" if seen else "internal", None, gate if seen else f"({gate})", f"they meet at {gate}", joined, looks))
    return charts.Chart(found.whole.name, columns, 1, rows)
