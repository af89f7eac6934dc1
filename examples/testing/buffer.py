"""Buffers for two items, as a program might have them: what is tested, in against_sim.py and replay_log.py.

A buffer has two places. An item goes into the first one, moves on to the second one when that is free, and comes out there. Each buffer keeps a log of
what it does: a line `put N`, `move N` or `get N`.
"""


class Buffer:
    """A buffer as it should be."""

    def __init__(self):
        self.first, self.second, self.log = None, None, []

    def settle(self):
        """Moves an item on, if it can be."""
        if self.first is not None and self.second is None:
            self.first, self.second = None, self.first
            self.log.append(f"move {self.second}")

    def put(self, item):
        """Takes an item; whether there was room."""
        self.settle()
        if self.first is not None:
            return False
        self.first = item
        self.log.append(f"put {item}")
        return True

    def get(self):
        """Gives an item, or None where there is none."""
        self.settle()
        if self.second is None:
            return None
        item, self.second = self.second, None
        self.log.append(f"get {item}")
        return item


class Hasty(Buffer):
    """A faulty buffer: where both places are full, it gives what came last."""

    def get(self):
        self.settle()
        if self.first is None:
            return super().get()
        item, self.first = self.first, None
        self.log.append(f"get {item}")
        return item


class Forgetful(Buffer):
    """A faulty buffer: it refuses an item while the second place is full, though the first one is free."""

    def put(self, item):
        self.settle()
        return self.second is None and super().put(item)


BUFFERS = {"sound": Buffer, "hasty": Hasty, "forgetful": Forgetful}
