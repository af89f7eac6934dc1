#!/usr/bin/env python3
"""Three connections to one session of `sim`: a hub listens on a port, takes a line from whoever sends one, and answers it.

usage: examples/testing/three_connections.py

A line is an offer. The hub does all unseen steps first, makes the offer, and sends its answer to whom it came from. So three programs, in whatever
language, share one specification: what one of them puts another one gets.
"""
import selectors
import socket
import sys
import threading

from reference import Reference

SPEC = "examples/two_place_buffer/spec.lotos"


class Hub:
    """Listens on a port of this machine, and answers for a reference."""

    def __init__(self, reference):
        self.reference, self.chosen = reference, selectors.DefaultSelector()
        self.listening = socket.create_server(("127.0.0.1", 0))
        self.chosen.register(self.listening, selectors.EVENT_READ)

    def address(self):
        """Where it listens."""
        return self.listening.getsockname()

    def serve(self, connections):
        """Answers until so many connections have come and are closed."""
        while connections:
            for key, _ in self.chosen.select():
                if key.fileobj is self.listening:
                    connection = self.listening.accept()[0]
                    self.chosen.register(connection, selectors.EVENT_READ, connection.makefile("rw"))
                elif line := key.data.readline():
                    self.reference.settle()
                    key.data.write(self.reference.ask(f"offer {line.rstrip()}") + "\n")
                    key.data.flush()
                else:
                    self.chosen.unregister(key.fileobj)
                    key.fileobj.close()
                    connections -= 1
        self.listening.close()


class Connection:
    """A program's end of a connection."""

    def __init__(self, address):
        self.lines = socket.create_connection(address).makefile("rw")

    def offer(self, offer):
        """Makes an offer, and gives its answer."""
        self.lines.write(offer + "\n")
        self.lines.flush()
        return self.lines.readline().rstrip()


def main():
    hub = Hub(Reference(SPEC, "--values", "2"))
    serving = threading.Thread(target=hub.serve, args=(3,))
    serving.start()
    ends = [Connection(hub.address()) for _ in range(3)]
    # The first two put, and the third gets.
    for number, offer in ((1, "put !0"), (2, "put !Succ(0)"), (1, "put !0"), (3, "get ?Nat"), (1, "put !0"), (3, "get ?Nat"), (3, "get ?Nat")):
        print(f"connection {number}: {offer}: {ends[number - 1].offer(offer)}")
    for end in ends:
        end.lines.close()
    serving.join()
    hub.reference.close()
    return 0


sys.exit(main())
