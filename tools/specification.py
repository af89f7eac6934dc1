"""Reads the behaviour of a specification: its processes and constructs, each with its place (docs/LANGUAGE.md). It judges nothing: types are
skipped, of expressions it is told where they stand (tools/data.py reads both), and of a text that `check` refuses it reads what it can.

A construct is a Node, whose kind is one of
  stop, exit, prefix, internal, choice, value, gates, guard, let, parallel, hide, enable, disable, call, relabel
"""
import re
from collections import namedtuple

KEYWORDS = set("""accept actualizedby any behavior behaviour choice endlib endproc endspec endtype eqns exit for forall formaleqns formalopns
    formalsorts hide i in is let library noexit of ofsort opnnames opns par process renamedby sortnames sorts specification stop type using
    where""".split())
GAP = re.compile(r"[ \t\r\n]+|\(\*.*?\*\)", re.S)
WORD = re.compile(r"[A-Za-z0-9](?:_*[A-Za-z0-9])*")
OPERATION = re.compile(r"[#%&*+\-./<=>@\\^~{}]+")
SYMBOL = re.compile(r"\|\|\||\|\||\|\[|\[\]|\[>|:=|[\[\]:();,!?_]")


# A field of an action, of an exit or of a call: `!` for an expression, which stands from begin to end, and `?` for a name and a sort, of which an `any`
# has only the sort. seen: the variables that an expression sees.
Field = namedtuple("Field", "kind name sort begin end seen")
# A condition of an action or of a guard: where it stands, and the variables that it sees.
Condition = namedtuple("Condition", "begin end seen")
# A name that is declared: gate, process or variable; for a variable its sort.
Declared = namedtuple("Declared", "kind name begin sort")
# Where a name is used, and what it means there, which may be None.
Use = namedtuple("Use", "begin end declared")


class Unreadable(ValueError):
    """A text isn't in the grammar, as far as it is read."""


class Token:
    """A word or symbol, in small letters as `key`, with where it begins and ends in the text."""
    __slots__ = ("text", "key", "begin", "end")

    def __init__(self, text, begin):
        self.text, self.key, self.begin, self.end = text, text.lower(), begin, begin + len(text)


class Node:
    """A construct: its kind, where it begins in the text, its parts, its gates, and what its kind has beside (`name`, `scope`, `fields` and `condition`).
    `end` is where it ends, of an action and a guard without what follows; `last` is where a behaviour ends."""
    __slots__ = ("kind", "begin", "parts", "gates", "name", "scope", "fields", "condition", "end", "last", "sides", "settled", "known")

    def __init__(self, kind, begin, parts=(), gates=(), name="", scope=None, fields=(), condition=None):
        self.kind, self.begin, self.parts, self.gates, self.name, self.scope, self.fields = kind, begin, tuple(parts), gates, name, scope, fields
        self.condition, self.end, self.last, self.sides, self.settled, self.known = condition, begin, begin, None, False, None

    def with_parts(self, *parts):
        """The construct over other parts."""
        made = Node(self.kind, self.begin, parts, self.gates, self.name, self.scope, self.fields, self.condition)
        made.end, made.last, made.sides, made.known = self.end, self.last, self.sides, self.known
        return made

    def knowing(self, known):
        """The construct with values of variables, by name in small letters; those that it has itself come first."""
        mine = {name: value for name, value in (self.known or {}).items() if value is not None}
        if not known or known.keys() <= mine.keys():
            return self
        made = self.with_parts(*self.parts)
        made.known, made.settled = {**known, **mine}, False
        return made

    def with_gates(self, gates):
        """The construct with other gates."""
        made = self.with_parts(*self.parts)
        made.gates = gates
        return made


class Process:
    """A process, or the specification itself: its name, gates, parameters as fields, how it ends, body, and the processes of its `where` part. It stands
    from begin to end, its name at `named`."""

    def __init__(self, name, gates, scope, begin):
        self.name, self.gates, self.scope, self.begin, self.body = name, gates, scope, begin, None
        self.parameters, self.ends, self.named, self.end = (), None, begin, begin

    def all(self):
        """This process and those of its `where` part, and of theirs, in the order of the text."""
        yield self
        for process in self.scope.processes.values():
            yield from process.all()

    def at(self, offset):
        """The innermost process in which this place of the text lies."""
        return max((one for one in self.all() if one.begin <= offset < one.end), key=lambda one: one.begin, default=self)


class Scope:
    """The processes of a `where` part, and the scope round it."""

    def __init__(self, outer):
        self.outer, self.processes = outer, {}

    def processes_seen(self):
        """The processes that can be called here, by name."""
        return {**(self.outer.processes_seen() if self.outer else {}), **self.processes}

    def find(self, name):
        """The process that a name means here."""
        scope = self
        while scope is not None:
            if name.lower() in scope.processes:
                return scope.processes[name.lower()]
            scope = scope.outer
        raise Unreadable(f"there is no process {name}")


def place(text, offset):
    """The line and the column, from 1, of the byte with this offset."""
    return text.count("\n", 0, offset) + 1, offset - text.rfind("\n", 0, offset)


def nodes(node):
    """A construct and all constructs in it."""
    rest = [node]
    while rest:
        now = rest.pop()
        yield now
        rest += reversed(now.parts)


def tokens(text):
    """The tokens of a text."""
    found, at, bar = [], 0, False
    while at < len(text):
        if gap := GAP.match(text, at):
            at = gap.end()
            continue
        if bar and text.startswith("]", at) and not text.startswith("[]", at):
            piece, bar = "]|" if text.startswith("]|", at) else "]", False
        else:
            match = WORD.match(text, at) or OPERATION.match(text, at) or SYMBOL.match(text, at)
            if not match:
                raise Unreadable(f"no token at {place(text, at)}")
            piece = match[0]
            bar = bar or piece == "|["
        found.append(Token(piece, at))
        at += len(piece)
    return found


class Reader:
    """Reads tokens from left to right. `seen` are the variables that an expression sees, `gates` the gates, both by name in small letters; `uses` gets each
    name of a gate, a process or a variable, with what it means."""

    def __init__(self, text):
        self.text, self.tokens, self.at = text, tokens(text), 0
        self.seen, self.gates, self.scope, self.uses, self.calls = {}, {}, None, [], []

    def key(self, ahead=0):
        """The token that comes next, in small letters; empty at the end."""
        return self.tokens[self.at + ahead].key if 0 <= self.at + ahead < len(self.tokens) else ""

    def take(self, key=None):
        """The next token, which must be this one where one is named."""
        if self.at >= len(self.tokens) or key not in (None, self.tokens[self.at].key):
            where = self.tokens[self.at].begin if self.at < len(self.tokens) else len(self.text)
            raise Unreadable(f"{key or 'a token'} isn't at %d:%d" % place(self.text, where))
        self.at += 1
        return self.tokens[self.at - 1]

    def last(self):
        """Where the token before ends."""
        return self.tokens[self.at - 1].end

    # -------------------------------------------------------------- names

    def declare(self, kind, token, sort=""):
        """What a token declares."""
        made = Declared(kind, token.text, token.begin, sort)
        self.uses.append(Use(token.begin, token.end, made))
        return made

    def use(self, token, among):
        """Notes that a name is used, which means one of these."""
        self.uses.append(Use(token.begin, token.end, among.get(token.key)))

    def names(self, close):
        """Names with commas between, and what closes them."""
        found = [self.take()]
        while self.key() == ",":
            self.take()
            found.append(self.take())
        self.take(close)
        return found

    def gate_list(self):
        """A list of gates in square brackets; none where there is no such list."""
        if self.key() != "[":
            return []
        self.take("[")
        return self.names("]")

    def used_gates(self, found):
        """The names of gates that are used."""
        for token in found:
            self.use(token, self.gates)
        return tuple(token.text for token in found)

    def declared_gates(self, found):
        """The names of gates that are declared, seen from now on."""
        self.gates = {**self.gates, **{token.key: self.declare("gate", token) for token in found}}
        return tuple(token.text for token in found)

    def declarations(self, *ends):
        """Variables with their sorts, as fields, up to one of these tokens, which isn't taken; and what they mean."""
        fields, meant = [], {}
        while True:
            group = [self.take()]
            while self.key() == ",":
                self.take()
                group.append(self.take())
            self.take(":")
            sort = self.take().text
            for token in group:
                meant[token.key] = self.declare("variable", token, sort)
                fields.append(Field("?", token.text, sort, token.begin, token.end, None))
            if self.key() != "," or self.key() in ends:
                return tuple(fields), meant
            self.take()

    # -------------------------------------------------------------- what is skipped

    def skip(self, *ends):
        """Goes on to the first of these tokens that stands outside of brackets; gives the parts between commas that stand outside, as where each begins and ends."""
        depth, parts, begin = 0, [], self.at
        while depth or self.key() not in ends:
            key = self.take().key
            depth += (key in ("(", "[")) - (key in (")", "]"))
            if key == "," and not depth:
                parts.append((begin, self.at - 1))
                begin = self.at
        return [(self.tokens[first].begin, self.tokens[end - 1].end) for first, end in [*parts, (begin, self.at)] if end > first]

    def expression(self, *ends):
        """Skips an expression; gives it as a field."""
        begin = self.tokens[self.at].begin if self.at < len(self.tokens) else len(self.text)
        first = self.at
        self.skip(*ends)
        self.note(first, self.at)
        return Field("!", "", "", begin, self.last(), self.seen)

    def note(self, first, end):
        """Notes the variables among the tokens of expressions."""
        for before, token in zip(self.tokens[max(first - 1, 0):end], self.tokens[first:end]):
            if token.key in self.seen and before.key not in ("of", "any"):
                self.use(token, self.seen)

    def condition(self, close="]"):
        """A condition in brackets, the first of which comes next."""
        begin, first = self.take("[").begin, self.at
        self.skip(close)
        self.note(first, self.at)
        self.take(close)
        return Condition(begin, self.last(), self.seen)

    def functionality(self):
        """How a behaviour ends: None for `noexit`, else the sorts of its `exit`."""
        if self.take().key == "noexit":
            return None
        if self.key() != "(":
            return ()
        self.take()
        return tuple(token.text for token in self.names(")"))

    def types(self):
        """Skips definitions of types."""
        while self.key() in ("library", "type"):
            end = "endlib" if self.key() == "library" else "endtype"
            while self.take().key != end:
                pass

    # -------------------------------------------------------------- processes

    def specification(self):
        """The specification as a process."""
        begin, named = self.take("specification").begin, self.take()
        made = Process(named.text, self.declared_gates(self.gate_list()), Scope(None), begin)
        made.named = named.begin
        self.take(":")
        made.ends = self.functionality()
        self.types()
        self.take("behavior" if self.key() == "behavior" else "behaviour")
        self.body(made, "endspec")
        for name, scope, use in self.calls:
            found = scope.processes_seen().get(name)
            self.uses.append(Use(*use, found and Declared("process", found.name, found.named, "")))
        return made

    def process(self, outer):
        """A process that stands in the `where` part of this scope."""
        begin, named, kept = self.take("process").begin, self.take(), (self.gates, self.seen)
        self.declare("process", named)
        self.gates = self.seen = {}
        made = Process(named.text, self.declared_gates(self.gate_list()), Scope(outer), begin)
        made.named = named.begin
        if self.key() == "(":
            self.take()
            made.parameters, self.seen = self.declarations(")")
            self.take(")")
        self.take(":")
        made.ends = self.functionality()
        self.take(":=")
        outer.processes.setdefault(made.name.lower(), made)
        self.body(made, "endproc")
        self.gates, self.seen = kept

    def body(self, made, close):
        """The body of a process and its `where` part."""
        outer, self.scope = self.scope, made.scope
        made.body = self.behaviour()
        if self.key() == "where":
            self.take()
            while self.key() != close:
                if self.key() == "process":
                    self.process(made.scope)
                elif self.key() in ("library", "type"):
                    self.types()
                else:
                    self.take(close)
        made.end = self.take(close).end
        self.scope = outer

    # -------------------------------------------------------------- behaviours

    def behaviour(self):
        """A behaviour, with `>>`."""
        rights, kept = [], self.seen
        left = self.disable()
        while self.key() == ">>":
            operator, taken = self.take(), ()
            if self.key() == "accept":
                self.take()
                taken, meant = self.declarations("in")
                self.take("in")
                self.seen = {**kept, **meant}
            rights.append((left, operator, taken))
            left = self.disable()
        for before, operator, taken in reversed(rights):
            left = self.over(Node("enable", operator.begin, name=">>", fields=taken), before, left)
        self.seen = kept
        return left

    def over(self, made, before, left):
        """An operator over its two sides."""
        made = made.with_parts(before, left)
        made.last = left.last
        return made

    def right_grouped(self, part, operator):
        """Parts with operators between, which group to the right; an operator gives what is made of its two sides, or None where there is none."""
        lefts, left = [], part()
        while made := operator():
            lefts.append((left, made))
            left = part()
        for before, made in reversed(lefts):
            left = self.over(made, before, left)
        return left

    def disable(self):
        """A behaviour of `[>`."""
        return self.right_grouped(self.parallel, lambda: Node("disable", self.take().begin, name="[>") if self.key() == "[>" else None)

    def parallel(self):
        """A parallel composition."""
        return self.right_grouped(self.choice, self.parallel_operator)

    def choice(self):
        """A choice between two behaviours."""
        return self.right_grouped(self.unary, lambda: Node("choice", self.take().begin, name="[]") if self.key() == "[]" else None)

    def parallel_operator(self):
        """A parallel operator, or None."""
        if self.key() not in ("|||", "||", "|["):
            return None
        token = self.take()
        gates = self.used_gates(self.names("]|")) if token.key == "|[" else ()
        made = Node("parallel", token.begin, (), gates, token.key if token.key != "|[" else f"|[{', '.join(gates)}]|")
        made.end = self.last()
        return made

    def unary(self):
        """A guarded behaviour, an action and what follows it, or an atom."""
        wrapped, kept = [], self.seen
        while True:
            if self.key() == "[":
                begin = self.tokens[self.at].begin
                node = Node("guard", begin, condition=self.condition())
                self.take("->")
            elif self.key() == "i":
                node = Node("internal", self.take().begin, name="i")
                self.take(";")
            elif self.is_name() and self.key(1) in (";", "!", "?"):
                node = self.action()
            else:
                break
            node.end = self.tokens[self.at - 1].begin if node.kind == "prefix" else self.last()
            wrapped.append(node)
        made = self.atom()
        for node in reversed(wrapped):
            last, made = made.last, node.with_parts(made)
            made.last = last
        self.seen = kept
        return made

    def is_name(self):
        """Whether an identifier comes next."""
        return bool(re.fullmatch(r"[a-z][a-z0-9_]*", self.key())) and self.key() not in KEYWORDS

    def action(self):
        """An action at a gate, with what parts it from what follows: its fields are `!` for a value and `?` for each that is chosen. What follows sees these."""
        gate, fields, meant = self.take(), [], {}
        self.use(gate, self.gates)
        while self.key() in ("!", "?"):
            if self.take().key == "!":
                fields.append(self.expression("!", "?", ";", "["))
                continue
            group = [self.take()]
            while self.key() == ",":
                self.take()
                group.append(self.take())
            self.take(":")
            sort = self.take().text
            for token in group:
                fields.append(Field("?", token.text, sort, token.begin, token.end, None))
                meant[token.key] = self.declare("variable", token, sort)
        self.seen = {**self.seen, **meant}
        condition = self.condition() if self.key() == "[" else None
        self.take(";")
        return Node("prefix", gate.begin, name=gate.text, fields=tuple(fields), condition=condition)

    def atom(self):
        """A behaviour that no operator parts."""
        token = self.take()
        if token.key == "(":
            made = self.behaviour()
            made.last = self.take(")").end
            return made
        reads = {"stop": self.stop, "exit": self.exit, "hide": self.hide, "let": self.let, "choice": self.choices, "par": self.par}
        if token.key in reads:
            return reads[token.key](token.begin)
        if token.key in KEYWORDS or not token.key[0].isalpha():
            raise Unreadable("no behaviour begins at %d:%d" % place(self.text, token.begin))
        gates = self.used_gates(self.gate_list())
        self.calls.append((token.key, self.scope, (token.begin, token.end)))
        return self.ended(Node("call", token.begin, (), gates, token.text, self.scope, self.arguments()))

    def ended(self, made):
        """A construct that ends here."""
        made.end = made.last = self.last()
        return made

    def reaching(self, made, body):
        """A construct over its last part."""
        made = made.with_parts(body)
        made.last = body.last
        return made

    def arguments(self):
        """What stands in parentheses, where there is something, as fields."""
        if self.key() != "(":
            return ()
        self.take()
        first, found = self.at, self.skip(")")
        self.note(first, self.at)
        self.take(")")
        return tuple(Field("?", "", self.text[begin + 3:end].strip(), begin, end, None) if re.match(r"any\b", self.text[begin:end], re.I)
                     else Field("!", "", "", begin, end, self.seen) for begin, end in found)

    def stop(self, begin):
        """`stop`."""
        return self.ended(Node("stop", begin))

    def exit(self, begin):
        """`exit`, with a field `!` for each expression and `?` for each `any`."""
        return self.ended(Node("exit", begin, name="exit", fields=self.arguments()))

    def hide(self, begin):
        """`hide`."""
        found, kept = self.names("in"), self.gates
        made = Node("hide", begin, (), self.declared_gates(found), "hide")
        made.end = self.last()
        made = self.reaching(made, self.behaviour())
        self.gates = kept
        return made

    def let(self, begin):
        """`let`: its fields are its expressions, each with the name and the sort of its variable."""
        kept, fields, meant = self.seen, [], {}
        while True:
            token = self.take()
            self.take(":")
            sort = self.take().text
            self.take("=")
            meant[token.key] = self.declare("variable", token, sort)
            fields.append(self.expression(",", "in")._replace(name=token.text, sort=sort))
            if self.take().key == "in":
                break
        made = Node("let", begin, (), (), "let", None, tuple(fields))
        made.end, self.seen = self.last(), {**kept, **meant}
        made = self.reaching(made, self.behaviour())
        self.seen = kept
        return made

    def choices(self, begin):
        """A choice of values or of gates: one construct in another for each name."""
        made, kept = [], (self.seen, self.gates)
        while True:
            group = [self.take()]
            while self.key() == ",":
                self.take()
                group.append(self.take())
            if self.take().key == "in":
                made.append(Node("gates", begin, gates=self.used_gates(self.gate_list()), name=group[0].text))
                self.declared_gates(group)
            else:
                sort = self.take().text
                self.seen = {**self.seen, **{token.key: self.declare("variable", token, sort) for token in group}}
                made += [Node("value", begin, name=token.text, fields=(Field("?", token.text, sort, token.begin, token.end, None),)) for token in group]
            if self.take().key == "[]":
                break
        end = self.last()
        body = self.behaviour()
        for node in reversed(made):
            node.end = end
            body = self.reaching(node, body)
        self.seen, self.gates = kept
        return body

    def par(self, begin):
        """`par`: a parallel composition of copies of its body."""
        token = self.take()
        self.take("in")
        gates, operator, kept = self.used_gates(self.gate_list()), self.parallel_operator(), self.gates
        end = self.last()
        self.declared_gates([token])
        body = self.behaviour()
        self.gates = kept
        copies = [self.reaching(Node("relabel", begin, (), {token.key: gate}, "par"), body) for gate in gates]
        made = copies.pop()
        while copies:
            made = self.over(Node("parallel", begin, (), operator.gates, operator.name), copies.pop(), made)
        made.end = end
        return made


def read(text):
    """The specification of a text."""
    return Reader(text).specification()


def processes_in(text):
    """How many processes a text defines."""
    return sum(token.key == "process" for token in tokens(text))
