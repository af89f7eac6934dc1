"""Reads the data types of a specification (docs/LANGUAGE.md): sorts, operations and equations, each with its place, and the readings of expressions over
them. It judges nothing, and of a text that `check` refuses it reads what it can.
"""
import functools
import pathlib
import re
from collections import namedtuple

from specification import KEYWORDS, OPERATION, WORD, Unreadable, tokens

LANGUAGE = pathlib.Path(__file__).resolve().parent.parent / "docs/LANGUAGE.md"
MARK = re.compile(r"[ \t\r\n]*\(\*!(.*?)\*\)", re.S)
LOOSE = re.compile(r"[0-9A-Za-z_]+")

# An operation is its name in small letters, whether it stands between its arguments, and its sorts in small letters.
Operation = namedtuple("Operation", "name infix arguments result")
# What a name is declared as: how it is spelled, where (None in the library), and whether it is marked as a constructor.
Item = namedtuple("Item", "text begin marked type")
# An expression: its name as a token, its arguments, whether it stands between them, and the sorts that `of` names.
Expression = namedtuple("Expression", "token arguments infix sorts")
# A reading: an operation, or the name of a variable, with the readings of its arguments, and its sort.
Reading = namedtuple("Reading", "head arguments sort")
# An equation that is read: premises are pairs of readings.
Equation = namedtuple("Equation", "premises left right begin")
TRUE = Operation("true", False, (), "bool")
NOT = Operation("not", False, ("bool",), "bool")


@functools.cache
def library():
    """The types of the library, by name, as docs/LANGUAGE.md has them."""
    found = re.search(r"^### The library\n.*?```\n(.*?)```", LANGUAGE.read_text(encoding="utf-8"), re.M | re.S)
    return {one.name.lower(): one for one in Types(found[1], True).read().types}


def numeral(word, content):
    """How a number is written, as a sentence, where a word is one that no operation has and the naturals of the library are there; else nothing."""
    if not word.isdigit() or content.named(word) or not content.named("succ"):
        return ""
    number = int(word[:9])
    return f"Naturals are written by 0 and Succ{f': {word} is ' + 'Succ(' * number + '0' + ')' * number if number < 10 else ''}."


# ------------------------------------------------------------------ expressions

class Expressions:
    """Reads expressions from tokens."""

    def __init__(self, found):
        self.tokens, self.at = found, 0

    def key(self):
        """The token that comes next, in small letters; empty at the end."""
        return self.tokens[self.at].key if self.at < len(self.tokens) else ""

    def take(self, key=None):
        """The next token, which must be this one where one is named."""
        if self.at >= len(self.tokens) or key not in (None, self.tokens[self.at].key):
            raise Unreadable(f"{key or 'a token'} is missing in an expression")
        self.at += 1
        return self.tokens[self.at - 1]

    def is_name(self):
        """Whether the name of an operation or of a variable comes next."""
        key = self.key()
        return bool(WORD.fullmatch(key)) and key not in KEYWORDS or bool(OPERATION.fullmatch(key)) and key not in ("=", "=>", "->", ">>")

    def expression(self):
        """An expression; operations between operands group to the left."""
        left = self.simple()
        while self.is_name():
            left = Expression(self.take(), (left, self.simple()), True, ())
        return left

    def simple(self):
        """An operand."""
        if self.key() == "(":
            self.take()
            made = self.expression()
            self.take(")")
        elif self.is_name():
            made = Expression(self.take(), self.arguments(), False, ())
        else:
            raise Unreadable(f"no expression begins with {self.key() or 'the end'}")
        while self.key() == "of":
            self.take()
            made = made._replace(sorts=made.sorts + (self.take().key,))
        return made

    def side(self):
        """An expression, and what it is to be equal to, if that is said."""
        left = self.expression()
        if self.key() != "=":
            return left, None
        self.take()
        return left, self.expression()

    def arguments(self):
        """What stands in parentheses behind a name, if something does."""
        if self.key() != "(":
            return ()
        self.take()
        found = [self.expression()]
        while self.key() == ",":
            self.take()
            found.append(self.expression())
        self.take(")")
        return tuple(found)


def expression_of(text):
    """The expression of a text."""
    reader = Expressions(tokens(text))
    made = reader.expression()
    if reader.key():
        raise Unreadable(f"{reader.key()} stands behind an expression")
    return made


def premiss_of(text):
    """The expressions of a condition: what it asks, and what that is to be equal to, or None where it is to be true."""
    reader = Expressions(tokens(text))
    left, right = reader.side()
    if reader.key():
        raise Unreadable(f"{reader.key()} stands behind a condition")
    return left, right


def equation_sides(text):
    """All expressions of an equation, its premises first."""
    reader, found = Expressions(tokens(text)), []
    while True:
        found += [one for one in reader.side() if one is not None]
        if reader.key() not in (",", "=>"):
            return found
        reader.take()


# ------------------------------------------------------------------ types

class Type:
    """A type as it is written."""

    def __init__(self, token, is_library):
        self.token, self.name, self.is_library = token, token.text, is_library
        self.imports, self.base, self.actuals = [], None, []
        self.sort_pairs, self.operation_pairs = {}, {}
        self.sorts, self.operations, self.formals, self.equations, self.end = {}, {}, set(), [], token.end
        # The variables that a `forall` declares, as tokens.
        self.variables = []

    def declares_formals(self):
        """Whether the type itself leaves something open."""
        return bool(self.formals)


class Types(Expressions):
    """Reads the types of a text."""

    def __init__(self, text, is_library=False):
        super().__init__(tokens(text))
        self.text, self.is_library, self.types, self.wanted = text, is_library, [], []

    def read(self):
        """The types of the text, and the names that its `library` parts have."""
        while self.at < len(self.tokens):
            key = self.take().key
            if key == "library":
                self.wanted += self.names("endlib")
            elif key == "type":
                self.type()
        return self

    def names(self, *ends):
        """Names, with commas or without, up to a token, which is taken."""
        found = []
        while self.key() not in ends:
            token = self.take()
            if token.key != ",":
                found.append(token)
        self.take()
        return found

    def type(self):
        """A type."""
        made = Type(self.take(), self.is_library)
        self.types.append(made)
        self.take("is")
        kinds = ("renamedby", "actualizedby")
        if self.at + 1 < len(self.tokens) and self.tokens[self.at + 1].key in kinds:
            made.base = self.take()
            if self.take().key == "actualizedby":
                made.actuals = self.names("using")
            self.pairs(made)
            return
        while self.key() and self.key() not in ("formalsorts", "formalopns", "formaleqns", "sorts", "opns", "eqns", "endtype"):
            token = self.take()
            if token.key != ",":
                made.imports.append(token)
        self.parts(made)

    def pairs(self, made):
        """The pairs of a renaming or of an actualisation."""
        part = None
        while self.key() != "endtype":
            if self.key() in ("sortnames", "opnnames"):
                part = self.take().key
            elif self.key() == ",":
                self.take()
            else:
                new = self.operation_name()
                self.take("for")
                old = self.operation_name()
                if part == "sortnames":
                    made.sort_pairs[old[0].key] = new[0]
                else:
                    made.operation_pairs[old[0].key, old[1]] = new
        made.end = self.take().end

    def operation_name(self):
        """The token of a name, and whether it has low lines round it."""
        if self.key() == "_":
            self.take()
            token = self.take()
            self.take("_")
            return token, True
        return self.take(), False

    def parts(self, made):
        """The parts of a type that declares something."""
        while self.key() != "endtype":
            part = self.take().key
            if part in ("sorts", "formalsorts"):
                while self.key() not in ("formalopns", "formaleqns", "sorts", "opns", "eqns", "endtype"):
                    token = self.take()
                    if token.key != ",":
                        made.sorts.setdefault(token.key, Item(token.text, None if self.is_library else token.begin, False, made.name))
                        made.formals |= {token.key} if part == "formalsorts" else set()
            elif part in ("opns", "formalopns"):
                while self.key() not in ("formaleqns", "sorts", "opns", "eqns", "endtype"):
                    self.operations(made, part == "formalopns")
            elif part in ("eqns", "formaleqns"):
                made.formals |= {"equations"} if part == "formaleqns" else set()
                self.equation_body(made)
            else:
                raise Unreadable(f"{part} isn't a part of a type")
        made.end = self.take().end

    def operations(self, made, is_formal):
        """A declaration of operations."""
        found = []
        while True:
            token, infix = self.operation_name()
            end = self.tokens[self.at - 1].end
            mark = MARK.match(self.text, end)
            words = [word.lower() for word in LOOSE.findall(mark[1])] if mark else []
            found.append((token, infix, "constructor" in words and "external" not in words))
            if self.key() != ",":
                break
            self.take()
        self.take(":")
        arguments = []
        while self.key() != "->":
            token = self.take()
            if token.key != ",":
                arguments.append(token.key)
        self.take()
        result = self.take().key
        for token, infix, marked in found:
            operation = Operation(token.key, infix, tuple(arguments), result)
            made.operations.setdefault(operation, Item(token.text, None if self.is_library else token.begin, marked, made.name))
            made.formals |= {operation} if is_formal else set()

    def equation_body(self, made):
        """The equations of a part: each with its variables, its sort, and its sides as expressions."""
        outer, inner, sort = {}, {}, None
        while self.key() not in ("sorts", "opns", "eqns", "endtype"):
            if self.key() == "ofsort":
                self.take()
                sort, inner = self.take().key, {}
            elif self.key() == "forall":
                self.take()
                (outer if sort is None else inner).update(self.variables())
            elif self.key() == ";":
                self.take()
            else:
                self.equation(made, {**outer, **inner}, sort)

    def variables(self):
        """The variables of a `forall`, with their sorts."""
        found = {}
        while True:
            group = [self.take()]
            while self.key() == ",":
                self.take()
                group.append(self.take())
            self.take(":")
            sort = self.take().key
            found.update({token.key: sort for token in group})
            self.types[-1].variables += group
            if self.key() != ",":
                return found
            self.take()

    def equation(self, made, variables, sort):
        """An equation."""
        begin, sides = self.tokens[self.at].begin, [self.side()]
        while self.key() == ",":
            self.take()
            sides.append(self.side())
        premises = []
        if self.key() == "=>":
            self.take()
            premises, sides = sides, [self.side()]
        if len(sides) != 1 or sides[0][1] is None:
            raise Unreadable("an equation without its sides")
        made.equations.append((begin, self.tokens[self.at - 1].end, variables, sort, premises, *sides[0]))


# ------------------------------------------------------------------ content

class Content:
    """What a type has: sorts and operations with what they are declared as, and equations."""

    def __init__(self):
        self.sorts, self.operations, self.equations = {}, {}, {}

    def add(self, other):
        """Adds what another type has."""
        for mine, theirs in ((self.sorts, other.sorts), (self.operations, other.operations), (self.equations, other.equations)):
            for key, item in theirs.items():
                mine.setdefault(key, item)

    def readings(self, expression, variables, sort=None):
        """The readings of an expression over this content, at most two of each sort; with variables and their sorts."""
        found = []
        key = expression.token.key
        if not expression.infix and not expression.arguments and key in variables:
            found = [Reading(key, (), variables[key])]
        else:
            arguments = [self.readings(one, variables) for one in expression.arguments]
            for operation in self.named(key):
                if operation.infix == expression.infix and len(operation.arguments) == len(arguments):
                    choices = [[one for one in found_here if one.sort == wanted] for found_here, wanted in zip(arguments, operation.arguments)]
                    if all(choices):
                        found.append(Reading(operation, tuple(choice[0] for choice in choices), operation.result))
                        if any(len(choice) > 1 for choice in choices):
                            found.append(found[-1])
        wanted = set(expression.sorts) | ({sort} if sort else set())
        return [one for one in found if all(one.sort == each for each in wanted)]

    def named(self, key):
        """The operations of a name."""
        if not hasattr(self, "by_name"):
            self.by_name = {}
            for operation in self.operations:
                self.by_name.setdefault(operation.name, []).append(operation)
        return self.by_name.get(key, ())

    def sort_of(self, text, variables):
        """The sort of an expression as it is declared, or None where it has no reading or several."""
        try:
            found = self.readings(expression_of(text), variables)
        except (Unreadable, RecursionError):
            return None
        return self.spelled(found[0].sort) if len({one.sort for one in found}) == 1 else None

    def spelled(self, sort):
        """A sort as it is declared."""
        return self.sorts[sort].text if sort in self.sorts else sort

    def signature(self, operation):
        """An operation with its sorts, as text."""
        name = self.operations[operation].text
        sorts = ", ".join(self.spelled(sort) for sort in operation.arguments)
        return f"{f'_{name}_' if operation.infix else name} : {sorts}{' ' if sorts else ''}-> {self.spelled(operation.result)}"


def imaged(content, sort_pairs, operation_pairs):
    """The image of a content under a renaming."""
    made = Content()
    new_sorts = {key: sort_pairs[key].key if key in sort_pairs else key for key in content.sorts}

    def sort_of(sort):
        return new_sorts.get(sort, sort)

    def operation_of(one):
        new = operation_pairs.get((one.name, one.infix))
        name, infix = (new[0].key, new[1]) if new else (one.name, one.infix)
        return Operation(name, infix, tuple(map(sort_of, one.arguments)), sort_of(one.result))

    def reading_of(one):
        head = one.head if isinstance(one.head, str) else operation_of(one.head)
        return Reading(head, tuple(map(reading_of, one.arguments)), sort_of(one.sort))

    for key, item in content.sorts.items():
        made.sorts.setdefault(new_sorts[key], item._replace(text=sort_pairs[key].text) if key in sort_pairs else item)
    for one, item in content.operations.items():
        new = operation_pairs.get((one.name, one.infix))
        made.operations.setdefault(operation_of(one), item._replace(text=new[0].text) if new else item)
    for equation in content.equations.values():
        image = Equation(tuple((reading_of(one), reading_of(other)) for one, other in equation.premises), reading_of(equation.left),
                         reading_of(equation.right), equation.begin)
        made.equations.setdefault(canonical(image), image)
    return made


class Data:
    """The types of a specification, and what all of them have that aren't formal."""

    def __init__(self, text):
        own = Types(text).read()
        known = library()
        wanted = [known[token.key] for token in own.wanted if token.key in known]
        for one in wanted:
            wanted += [known[token.key] for token in one.imports if token.key in known and known[token.key] not in wanted]
        self.own, self.all = own.types, {one.name.lower(): one for one in [*wanted, *own.types]}
        self.contents, self.whole = {}, Content()
        for one in self.all.values():
            if not self.is_formal(one):
                self.whole.add(self.content(one))

    def is_formal(self, one, round_it=()):
        """Whether a type is formal."""
        if one in round_it:
            return False
        below = [] if one.actuals else [*one.imports, *([one.base] if one.base else [])]
        return one.declares_formals() or any(self.is_formal(self.all[token.key], (*round_it, one)) for token in below if token.key in self.all)

    def content(self, one, round_it=()):
        """What a type has."""
        if one in self.contents:
            return self.contents[one]
        made = Content()
        if one in round_it:
            return made
        for token in [*one.imports, *one.actuals]:
            if token.key in self.all:
                made.add(self.content(self.all[token.key], (*round_it, one)))
        if one.base and one.base.key in self.all:
            made.add(imaged(self.content(self.all[one.base.key], (*round_it, one)), one.sort_pairs, one.operation_pairs))
        made.add(own_items(one))
        for equation in one.equations:
            if found := equation_of(made, *equation):
                made.equations.setdefault(canonical(found), found)
        self.contents[one] = made
        return made


def own_items(one):
    """The sorts and operations that a type declares itself."""
    made = Content()
    made.sorts, made.operations = dict(one.sorts), dict(one.operations)
    return made


def equation_of(content, begin, end, variables, sort, premises, left, right):
    """An equation read over a content, or None where it can't be read."""
    pairs = []
    for first, second in premises:
        readings = content.readings(first, variables, None if second else "bool")
        others = content.readings(second, variables) if second else [Reading(TRUE, (), "bool")]
        found = [(one, other) for one in readings for other in others if one.sort == other.sort]
        if not found:
            return None
        pairs.append(found[0])
    lefts, rights = content.readings(left, variables, sort), content.readings(right, variables, sort)
    return Equation(tuple(pairs), lefts[0], rights[0], begin) if lefts and rights else None


# ------------------------------------------------------------------ partial operations

def constructors(content):
    """The operations that are constructors: marked, or without an equation."""
    heads = {equation.left.head for equation in content.equations.values()}
    return {one for one, item in content.operations.items() if item.marked or one not in heads}


def canonical(equation):
    """An equation with its variables numbered: two that are equal up to their names have one."""
    names = {}
    return (plain(equation.left, names), tuple((plain(one, names), plain(other, names)) for one, other in equation.premises), plain(equation.right, names))


def inhabited(operations):
    """The sorts of which these operations make values."""
    found, before = set(), None
    while before != len(found):
        before = len(found)
        found |= {one.result for one in operations if all(sort in found for sort in one.arguments)}
    return found


def plain(reading, names):
    """A reading with its variables numbered by their first occurrence."""
    if isinstance(reading.head, str):
        return Reading(f"{names.setdefault(reading.head, len(names))}", (), reading.sort)
    return Reading(reading.head, tuple(plain(one, names) for one in reading.arguments), reading.sort)


def given(premise, made):
    """Which term a premise gives which constant, or None."""
    for one, other in (premise, premise[::-1]):
        if not isinstance(other.head, str) and other.head in made and not other.arguments:
            if one.head == NOT and other.head == TRUE:
                return one.arguments[0], Operation("false", False, (), "bool")
            return one, other.head
    return None


def is_full(lists, made):
    """Whether lists of premises leave no case out."""
    if any(not one for one in lists):
        return True
    for premise in {one[0] for one in lists}:
        found = given(premise, made)
        if not found:
            continue
        constants = [one for one in made if one.result == found[0].sort]
        if any(one.arguments for one in constants):
            continue
        rest = {one: [premises[1:] for premises in lists if given(premises[0], made) == (found[0], one)] for one in constants}
        if sum(map(len, rest.values())) == len(lists) and all(below and is_full(below, made) for below in rest.values()):
            return True
    return False


def left_out(content, rows, sorts, made, there):
    """Patterns, as texts, of constructors and `_` that no row of patterns matches; or None."""
    if not sorts:
        return None if rows else ()
    heads = {row[0].head for row in rows if not isinstance(row[0].head, str)}
    here = sorted((one for one in made if one.result == sorts[0] and all(sort in there for sort in one.arguments)), key=lambda it: (len(it.arguments), it.name))
    missing = next((one for one in here if one not in heads), None)
    if missing or not heads:
        below = left_out(content, [row[1:] for row in rows if isinstance(row[0].head, str)], sorts[1:], made, there)
        if below is not None:
            return (called(content, missing, ("_",) * len(missing.arguments)) if heads else "_", *below)
        if not heads:
            return None
    for one in here:
        narrowed = []
        for row in rows:
            if isinstance(row[0].head, str):
                narrowed.append((*(Reading("_", (), sort) for sort in one.arguments), *row[1:]))
            elif row[0].head == one:
                narrowed.append((*row[0].arguments, *row[1:]))
        below = left_out(content, narrowed, (*one.arguments, *sorts[1:]), made, there)
        if below is not None:
            count = len(one.arguments)
            return (called(content, one, below[:count]), *below[count:])
    return None


def called(content, operation, arguments):
    """A call as text."""
    name = content.operations[operation].text
    if operation.infix:
        return f"({arguments[0]} {name} {arguments[1]})".replace("(*", "( *")
    return name + (f"({','.join(arguments)})".replace("(*", "( *") if arguments else "")


def partial(content):
    """The partial operations, each with a call for which no equation says anything; `_` stands for whatever there is."""
    made = constructors(content)
    there = inhabited(made)
    for operation in content.operations:
        if operation in made or not all(sort in there for sort in operation.arguments):
            continue
        groups = {}
        for equation in content.equations.values():
            if equation.left.head == operation:
                names = {}
                left = plain(equation.left, names)
                groups.setdefault(left, []).append(tuple((plain(one, names), plain(other, names)) for one, other in equation.premises))
        rows = [left.arguments for left, lists in groups.items() if is_full(lists, made)]
        found = left_out(content, rows, operation.arguments, made, there)
        if found is not None:
            yield operation, called(content, operation, found)
