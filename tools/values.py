"""The values of expressions, worked out by the equations of a specification (docs/LANGUAGE.md, "Evaluation"). Nothing of it is proved: it shows what
stands in a behaviour, and isn't asked what holds. What is too dear or too large has no value here.
"""
import re

import data
from data import Reading
from specification import Unreadable

# The most steps for an expression, the most symbols of a value, and the longest text of one.
STEPS, SYMBOLS, LONGEST = 50_000, 2_000, 20_000


class Unknown(Exception):
    """An expression has no value that is known here."""


class Values:
    """Works out the expressions of a specification."""

    def __init__(self, text):
        self.text, self.content = text, data.Data(text).whole
        self.equations, self.read, self.steps = {}, {}, 0
        self.inhabited = data.inhabited(self.content.operations)
        for equation in self.content.equations.values():
            if not isinstance(equation.left.head, str):
                self.equations.setdefault(equation.left.head, []).append(equation)
        alike = {}
        for operation in self.content.operations:
            alike.setdefault((operation.name, operation.arguments), []).append(operation)
        self.shared = {operation for found in alike.values() if len(found) > 1 for operation in found}

    # -------------------------------------------------------------- expressions

    def reading(self, begin, end, seen, sort=None):
        """The reading of the expression that stands here in the text."""
        key = begin, end, sort
        if key not in self.read:
            variables = {name: declared.sort.lower() for name, declared in seen.items()}
            try:
                found = self.content.readings(data.expression_of(self.text[begin:end]), variables, sort) if end - begin < LONGEST else []
            except Unreadable:
                found = []
            self.read[key] = found[0] if len(found) == 1 else None
        return self.read[key]

    def sort(self, field):
        """The sort of a field, or None where it isn't known."""
        if field.kind == "?":
            return field.sort.lower()
        found = self.reading(field.begin, field.end, field.seen)
        return found.sort if found else None

    def value(self, field, known):
        """The value of an expression, with the values of variables; None where it isn't known."""
        return self.evaluated(self.reading(field.begin, field.end, field.seen, field.sort.lower() or None), known)

    def evaluated(self, reading, known):
        """The value of a reading, or None."""
        self.steps = 0
        try:
            return self.worked_out(reading, known) if reading else None
        except Unknown:
            return None

    def holds(self, condition, known):
        """Whether a condition in brackets holds: True, False, or None where that isn't known."""
        sides = self.sides(condition)
        if sides is None:
            return None
        values = [self.evaluated(side, known) for side in sides]
        return None if None in values else values[0] == values[1]

    def where(self, condition, known):
        """The values of the variables in a condition as words, as `x is 0 and y is Succ(0)`; empty where none is known."""
        words = {word.lower() for word in re.findall(r"\w+", self.text[condition.begin:condition.end])}
        told = [f"{declared.name} is {self.spelled(known[name])}" for name, declared in condition.seen.items() if name in words and known.get(name)]
        return " and ".join(told)

    def sides(self, condition):
        """The readings of both sides of a condition, or None."""
        key = condition.begin, condition.end, "sides"
        if key not in self.read:
            self.read[key] = self.sides_read(condition)
        return self.read[key]

    def sides_read(self, condition):
        """Reads both sides of a condition."""
        variables = {name: declared.sort.lower() for name, declared in condition.seen.items()}
        try:
            left, right = data.premiss_of(self.text[condition.begin + 1:condition.end - 1])
        except Unreadable:
            return None
        lefts = self.content.readings(left, variables, None if right else "bool")
        rights = self.content.readings(right, variables, lefts[0].sort) if right and lefts else [Reading(data.TRUE, (), "bool")]
        return (lefts[0], rights[0]) if len(lefts) == len(rights) == 1 else None

    def of_text(self, text, sort=None):
        """The value of a text, as a trace has it, or None."""
        if len(text) > LONGEST:
            return None
        try:
            found = self.content.readings(data.expression_of(text), {}, sort and sort.lower())
        except (Unreadable, RecursionError):
            return None
        return self.evaluated(found[0], {}) if len(found) == 1 else None

    # -------------------------------------------------------------- evaluation

    def worked_out(self, reading, known):
        """The value of a reading: its arguments first, and then the first equation that applies."""
        self.steps += 1
        if self.steps > STEPS:
            raise Unknown
        if isinstance(reading.head, str):
            if known.get(reading.head) is None:
                raise Unknown
            return known[reading.head]
        arguments = tuple(self.worked_out(one, known) for one in reading.arguments)
        for equation in self.equations.get(reading.head, ()):
            bound = {}
            if all(matched(pattern, value, bound) for pattern, value in zip(equation.left.arguments, arguments)) \
                    and all(self.worked_out(one, bound) == self.worked_out(other, bound) for one, other in equation.premises):
                return self.worked_out(equation.right, bound)
        made = Reading(reading.head, arguments, reading.sort)
        if arguments and self.steps % 16 == 0 and size(made) > SYMBOLS:
            raise Unknown
        return made

    # -------------------------------------------------------------- texts

    def spelled(self, value):
        """A value as a trace has it."""
        text = data.called(self.content, value.head, [self.spelled(one) for one in value.arguments])
        return f"{text} of {self.content.spelled(value.sort)}" if value.head in self.shared else text


def size(value):
    """How many symbols a value has."""
    count, rest = 0, [value]
    while rest:
        now = rest.pop()
        count += 1
        rest += now.arguments
    return count


def matched(pattern, value, bound):
    """Whether a value is an instance of a pattern; notes what stands at its variables."""
    if isinstance(pattern.head, str):
        bound[pattern.head] = value
        return True
    return pattern.head == value.head and all(matched(one, other, bound) for one, other in zip(pattern.arguments, value.arguments))
