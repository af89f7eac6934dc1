"""What a specification has by its text alone, without a session: which processes are called, directly or through others, from its behaviour, and at which
gates of the heading each construct acts. Guards and synchronisation aren't asked, so more is found than can happen, and never less.
"""
from collections import namedtuple

import specification

# A construct that acts: its node, its process, and the gate as the whole behaviour has it, or None where it is hidden.
Acting = namedtuple("Acting", "node process gate")


class Reach:
    """The processes that are called, and what acts."""

    def __init__(self, text):
        self.whole = specification.read(text)
        self.called, self.acting, self.seen = {self.whole}, [], set()
        self.rest = [(self.whole, {gate.lower(): gate for gate in self.whole.gates})]
        while self.rest:
            process, gates = self.rest.pop()
            self.walk(process.body, process, gates)
        self.processes = list(self.whole.all())

    def walk(self, node, process, gates):
        """Notes what acts in a construct, with the gates that are seen there as the whole behaviour has them."""
        if node.kind == "prefix":
            self.acting.append(Acting(node, process, gates.get(node.name.lower())))
        elif node.kind == "call":
            self.call(node, gates)
        elif node.kind == "hide":
            gates = {**gates, **{gate.lower(): None for gate in node.gates}}
        elif node.kind == "relabel":
            gates = {**gates, **{gate: gates.get(image.lower()) for gate, image in node.gates.items()}}
        if node.kind == "gates":
            for gate in node.gates:
                self.walk(node.parts[0], process, {**gates, node.name.lower(): gates.get(gate.lower())})
            return
        for part in node.parts:
            self.walk(part, process, gates)

    def call(self, node, gates):
        """A call: its process is walked through once for each list of gates."""
        try:
            process = node.scope.find(node.name)
        except specification.Unreadable:
            return
        self.called.add(process)
        inner = {gate.lower(): gates.get(actual.lower()) for gate, actual in zip(process.gates, node.gates)}
        key = process, tuple(inner.items())
        if key not in self.seen:
            self.seen.add(key)
            self.rest.append((process, inner))

    def at(self, gate):
        """What acts at a gate of the heading, each construct once."""
        return list({id(one.node): one for one in self.acting if one.gate and one.gate.lower() == gate.lower()}.values())
