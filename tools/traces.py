"""Reads traces (docs/FORMATS.md, "Traces") of both formats, from their text alone: whether they are traces of a specification isn't asked.

An entry is an Entry; a tree is a Tree, a rule with the values that it chooses and the trees of its parts.
"""
import os
import re
from collections import namedtuple

Tree = namedtuple("Tree", "rule values parts")
# kind: pend, ask, act, reply, stall, leave or end. offers: pairs of a client and a number. text: the offer, the action or the word.
Entry = namedtuple("Entry", "kind line offers text tree")
# The first lines of format 1 and of format 2, and how many actions stand before each point of format 2.
HEADS = ("lotos-trace 1", "lotos-trace 2")
POINT = 64
SHARED = re.compile(r"(0|[1-9]\d*):")
RULE = re.compile(r"[a-z]+")
PARTS = {"pre": 0, "int": 0, "exit": 0, "both": 2}
RULES = set("pre int exit chl chr val gate guard let parl parr both hide pass enstep enend disstep disend distake call rel".split())
OFFER = re.compile(r"([1-9]\d*)\.([1-9]\d*)")


class Unreadable(ValueError):
    """A text isn't a trace."""


def words(text):
    """The words of a line: blanks inside brackets part none."""
    found, depth, begin = [], 0, 0
    for at, char in enumerate(text):
        depth += (char in "([") - (char in ")]")
        if char == " " and not depth:
            found.append(text[begin:at])
            begin = at + 1
    return found + [text[begin:]]


def fields_of(text):
    """The gate and the fields of an offer or an action: each with its `!` or `?`, and with ` of` and a sort where it has these."""
    gate, *rest = words(text)
    fields = []
    for word in rest:
        if word.startswith(("!", "?")):
            fields.append(word)
        else:
            fields[-1] += " " + word
    return gate, fields


def values_of(text, at):
    """The values behind a `[` at this place, and the place behind their `]`."""
    found, depth, begin = [], 0, at + 1
    for end in range(at + 1, len(text)):
        char = text[end]
        depth += (char == "(") - (char == ")")
        if not depth and char in ",]":
            found.append(text[begin:end])
            begin = end + 1
            if char == "]":
                return tuple(found), end + 1
    raise Unreadable("values without an end")


def tree_of(text):
    """The tree of a text. Trees may be thousands of levels deep, so they are read without recursion."""
    at, open_rules, made = 0, [], None
    while True:
        found = RULE.match(text, at)
        if not found or found[0] not in RULES:
            raise Unreadable(f"no rule in {text[at:at + 20]!r}")
        at, values = found.end(), ()
        if text.startswith("[", at):
            values, at = values_of(text, at)
        if PARTS.get(found[0], 1):
            if not text.startswith("(", at):
                raise Unreadable(f"{found[0]} without its part")
            open_rules.append((found[0], values, []))
            at += 1
            continue
        made = Tree(found[0], values, ())
        while open_rules:
            rule, values, parts = open_rules[-1]
            parts.append(made)
            wanted = ")" if len(parts) == PARTS.get(rule, 1) else ","
            if not text.startswith(wanted, at):
                raise Unreadable(f"{wanted} isn't behind a part of {rule}")
            at += 1
            if wanted == ",":
                break
            open_rules.pop()
            made = Tree(rule, values, tuple(parts))
        else:
            if at != len(text):
                raise Unreadable("more behind a tree")
            return made


def offer_of(word):
    """The client and the number of an offer."""
    found = OFFER.fullmatch(word)
    if not found:
        raise Unreadable(f"{word!r} names no offer")
    return int(found[1]), int(found[2])


def is_trace(text):
    """Whether a text begins as a trace does."""
    return text.startswith(tuple(head + "\n" for head in HEADS))


class Sharing:
    """What the lines of format 2 depend on: the text of the tree before, the number of actions, the offers that are pending; and the point
    that is due next."""

    def __init__(self):
        self.tree, self.actions, self.offers, self.point = "", 0, set(), None

    def whole(self, text):
        """The text of a tree, of what stands for it."""
        found = SHARED.match(text)
        if not found:
            raise Unreadable("a tree without the number of bytes that it shares")
        count, rest = int(found[1]), text[found.end():]
        tree = self.tree[:count] + rest
        if count != len(os.path.commonprefix([self.tree, tree])):
            raise Unreadable(f"{count} isn't the number of bytes that the tree shares with the one before it")
        return tree

    def passed(self, entry, tree):
        """An entry is behind, an action with this tree."""
        if entry.kind in ("pend", "ask"):
            self.offers.update(entry.offers)
        elif entry.kind in ("act", "reply", "stall"):
            self.offers.difference_update(entry.offers)
        if entry.kind == "act":
            self.actions += 1
            at_point = self.actions % POINT == 0
            self.tree = "" if at_point else tree
            self.point = f"point {self.actions} {len(self.offers)}" if at_point else None

    def stands(self, line):
        """The point that is due stands in the line."""
        if line != self.point:
            raise Unreadable(f"here `{self.point}` is due")
        self.point = None


def action_of(line, parts):
    """The entry of an `act` line, of its words behind `act`, with the text of its tree in place of the tree."""
    at = 1
    while at < len(parts) and (parts[at].startswith("!") or parts[at] == "of"):
        at += 2 if parts[at] == "of" else 1
    text, offers = " ".join(parts[:at]), ()
    if parts[at:at + 1] == ["by"]:
        offers, at = (offer_of(parts[at + 1]),), at + 2
    if parts[at:at + 1] != ["rules"] or not parts[at + 1:]:
        raise Unreadable("an action without its rules")
    return Entry("act", line, offers, text, " ".join(parts[at + 1:]))


def entry_of(line, text):
    """The entry of a line; of an action, with the text of its tree."""
    kind, *parts = words(text)
    if kind in ("pend", "ask", "reply") and len(parts) > 1:
        return Entry(kind, line, (offer_of(parts[0]),), " ".join(parts[1:]), None)
    if kind == "act" and parts:
        return action_of(line, parts)
    if kind == "stall" and parts:
        return Entry(kind, line, tuple(map(offer_of, parts)), "", None)
    if kind == "leave" and len(parts) == 1 and parts[0].isdigit():
        return Entry(kind, line, ((int(parts[0]), 0),), "", None)
    if kind == "end" and parts:
        return Entry(kind, line, (), " ".join(parts), None)
    raise Unreadable("no entry of a trace")


def whole_entry(line, text, sharing=None):
    """The entry of a line, of an action with its tree; in format 2 behind the lines of which this is known."""
    entry = entry_of(line, text)
    tree = sharing.whole(entry.tree) if sharing and entry.tree else entry.tree
    if sharing:
        sharing.passed(entry, tree)
    return entry._replace(tree=tree_of(tree)) if tree else entry


def read(text):
    """The entries of a trace, the end among them."""
    lines = text.split("\n")
    if lines[0] not in HEADS:
        raise Unreadable("line 1: this isn't a trace of format 1 or 2")
    sharing = Sharing() if lines[0] == HEADS[1] else None
    entries = []
    for number, line in enumerate(lines[1:-1], 2):
        try:
            if sharing and sharing.point:
                sharing.stands(line)
            else:
                entries.append(whole_entry(number, line, sharing))
        except (Unreadable, IndexError) as fault:
            raise Unreadable(f"line {number}: {fault}") from None
    kinds = [entry.kind for entry in entries]
    if lines[-1] or kinds.count("end") != 1 or kinds[-1] != "end":
        raise Unreadable(f"line {len(lines)}: a trace ends with one line `end`")
    return entries
