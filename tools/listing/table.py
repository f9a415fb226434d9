"""The code of each node, and the sequences of a program."""

from dataclasses import dataclass, field

from outline import Node
from scopes import Scope, nodes_in, params_of


class Label:
    """A place in the code that is known once it is reached."""

    place = None

    def __repr__(self):
        return str(self.place)


@dataclass
class Row:
    kind: str
    start: int
    end: int
    cont: Label
    depth: int
    seq: int = 0

    def order(self):
        """Rows stand by this."""
        last = {"break": 1, "next": 2}.get(self.kind, 0)
        return self.end, -self.start, last, self.seq


@dataclass
class Sequence:
    """A sequence, while its code grows."""

    node: Node
    kind: str
    parent: int
    number: int
    first_line: int
    scope: Scope
    name: str = ""
    entries: list = field(default_factory=list)
    rows: list = field(default_factory=list)
    code: list = field(default_factory=list)

    def has_params(self):
        return self.kind not in ("rescue", "ensure")

    def params(self, kind):
        params = self.node.parts[0] if self.has_params() else []
        return [name for of_kind, name, _ in params if of_kind == kind]

    def locals(self):
        return self.scope.locals if self.has_params() else []

    def reach(self, label):
        label.place = len(self.code)

    def emit(self, line, word, *operands):
        self.code.append((line or self.first_line, word, operands))


def numbered(root):
    """The numbers of the sequences of a program, by the place of each."""
    kinds = ("body", "rescue_sequence", "ensure_sequence")
    places, waiting = [], [root]
    while waiting:
        node = waiting.pop()
        places += [node.place] if node.form in kinds else []
        waiting += nodes_in(node.parts)
    return {place: number + 1 for number, place in enumerate(sorted(places))}


class Compiler:
    """Compiles a program: each sequence by the table, one method for each form."""

    def __init__(self, path, root):
        self.path = path
        self.numbers = numbered(root)
        self.sequences = {}
        body = Node("body", ([], root), 1, 1, 0)
        self.compile(Sequence(body, "file", 0, 0, 1, Scope(body)), body, False)

    def in_order(self):
        return [self.sequences[number] for number in sorted(self.sequences)]

    def compile(self, sequence, node, in_loop):
        self.sequences[sequence.number] = sequence
        Emitter(self, sequence, in_loop).node(node, 1 if sequence.kind == "rescue" else 0)


class Emitter:
    """Writes the code of the nodes of a sequence."""

    def __init__(self, compiler, sequence, in_loop):
        self.compiler = compiler
        self.seq = sequence
        self.emit = sequence.emit
        self.in_loop = in_loop

    def node(self, node, depth):
        """The code of a node that stands so deep on the stack."""
        getattr(self, "on_" + node.form)(node, depth, *node.parts)

    def nodes(self, nodes, depth):
        for index, node in enumerate(nodes):
            self.node(node, depth + index)

    def number(self, node):
        return self.compiler.numbers[node.place]

    def body(self, kind, node, name=""):
        """Compiles a body that stands in this sequence, and gives its number."""
        scope = Scope(node, self.seq.scope if kind == "block" else None)
        number = self.number(node)
        inner = Sequence(node, kind, self.seq.number, number, node.first, scope, name)
        self.compiler.compile(inner, node, False)
        return number

    def section(self, kind, node):
        """Compiles a rescue or an ensure part, and gives its number."""
        number = self.number(node)
        inner = Sequence(node, kind, self.seq.number, number, node.first, self.seq.scope)
        self.compiler.compile(inner, node, self.in_loop)
        return number

    def set_target(self, line, name):
        if name[0] == "@":
            self.emit(line, "setinstancevariable", name)
        elif name[0] == "$":
            self.emit(line, "setglobal", name)
        elif name[0].isupper():
            self.emit(line, "setconstant", name)
        else:
            self.emit(line, "setlocal", *self.seq.scope.place_of(name))

    # literals and variables

    def on_nil(self, node, depth):
        self.emit(node.line, "putnil")

    def on_true(self, node, depth):
        self.emit(node.line, "putobject", "true")

    def on_false(self, node, depth):
        self.emit(node.line, "putobject", "false")

    def on_self(self, node, depth):
        self.emit(node.line, "putself")

    def on_integer(self, node, depth, value):
        self.emit(node.line, "putobject", value)

    def on_symbol(self, node, depth, name):
        self.emit(node.line, "putobject", ":" + name)

    def on_text(self, node, depth, text):
        self.emit(node.line, "putstring", Text(text))

    def on_file(self, node, depth):
        self.emit(node.line, "putstring", Text(self.compiler.path))

    def on_folder(self, node, depth):
        self.emit(node.line, "putstring", Text(self.compiler.path.rpartition("/")[0] or "/"))

    def on_line_number(self, node, depth):
        self.emit(node.line, "putobject", node.line)

    def on_local(self, node, depth, name):
        self.emit(node.line, "getlocal", *self.seq.scope.place_of(name))

    def on_instance(self, node, depth, name):
        self.emit(node.line, "getinstancevariable", name)

    def on_global(self, node, depth, name):
        self.emit(node.line, "getglobal", name)

    # collections

    def on_joined(self, node, depth, pieces):
        for index, piece in enumerate(pieces):
            if isinstance(piece, Node):
                self.node(piece, depth + index)
                self.emit(node.line, "dup")
                self.emit(node.line, "objtostring")
                self.emit(node.line, "anytostring")
            else:
                self.emit(node.line, "putstring", Text(piece))
        self.emit(node.line, "concatstrings", len(pieces))

    def on_array(self, node, depth, nodes, spread):
        self.nodes(nodes, depth)
        self.emit(node.line, "newarray", len(nodes), *splats(spread))

    def on_hash(self, node, depth, nodes):
        self.nodes(nodes, depth)
        self.emit(node.line, "newhash", len(nodes))

    def on_range(self, node, depth, first, last, excludes_end):
        self.nodes([first, last], depth)
        self.emit(node.line, "newrange", int(excludes_end))

    def on_constant_path(self, node, depth, value, begins_at_top, names):
        if value:
            self.node(value, depth)
        start = 2 if value else int(begins_at_top)
        self.emit(node.line, "opt_getconstant_path", start, *names)

    # assignments

    def on_assign(self, node, depth, value, target):
        self.node(value, depth)
        self.emit(node.line, "dup")
        self.set_target(node.line, target)

    def on_assign_all(self, node, depth, values, targets):
        self.values(values, depth, node.line)
        self.emit(node.line, "dup")
        self.emit(node.line, "expandarray", len(targets))
        for target in targets:
            self.set_target(node.line, target)

    def values(self, values, depth, line):
        """Nil for nothing, one value, or an array of several."""
        self.nodes(values, depth)
        if not values:
            self.emit(line, "putnil")
        elif len(values) > 1:
            self.emit(line, "newarray", len(values))

    def on_assign_attribute(self, node, depth, receiver, value, setter):
        self.emit(node.first, "putnil")
        self.nodes([receiver, value], depth + 1)
        self.store(node, (2, setter, 1, flags(receiver)))

    def on_assign_index(self, node, depth, receiver, index, value):
        self.emit(node.first, "putnil")
        self.nodes([receiver, index, value], depth + 1)
        self.store(node, (3, "[]=", 2, flags(receiver)))

    def store(self, node, setter):
        """The call that sets the value on top, which goes to below the receiver first."""
        below, name, count, flag = setter
        self.emit(node.first, "setn", below)
        self.send(node.line, name, count, flag)
        self.emit(node.first, "pop")

    def send(self, line, name, count, flag=0):
        self.emit(line, "send", name, count, Flags(flag))

    def attribute_read(self, node, depth, receiver, name):
        self.emit(node.first, "putnil")
        self.node(receiver, depth + 1)
        self.emit(node.first, "dup")
        self.send(node.line, name, 0, flags(receiver))

    def index_read(self, node, depth, receiver, index):
        self.emit(node.first, "putnil")
        self.nodes([receiver, index], depth + 1)
        self.emit(node.first, "topn", 1)
        self.emit(node.first, "topn", 1)
        self.send(node.line, "[]", 1, flags(receiver))

    def on_operate_attribute(self, node, depth, receiver, name, value, operator, setter, line):
        self.attribute_read(node, depth, receiver, name)
        self.node(value, depth + 3)
        self.send(line, operator, 1)
        self.store(node, (2, setter, 1, flags(receiver)))

    def on_operate_index(self, node, depth, receiver, index, value, operator, line):
        self.index_read(node, depth, receiver, index)
        self.node(value, depth + 4)
        self.send(line, operator, 1)
        self.store(node, (3, "[]=", 2, flags(receiver)))

    def on_or_attribute(self, node, depth, receiver, name, value, setter):
        self.attribute_read(node, depth, receiver, name)
        self.set_unless(node, depth, "branchif", value, (2, setter, 1, flags(receiver)))

    def on_and_attribute(self, node, depth, receiver, name, value, setter):
        self.attribute_read(node, depth, receiver, name)
        self.set_unless(node, depth, "branchunless", value, (2, setter, 1, flags(receiver)))

    def on_or_index(self, node, depth, receiver, index, value):
        self.index_read(node, depth, receiver, index)
        self.set_unless(node, depth, "branchif", value, (3, "[]=", 2, flags(receiver)))

    def on_and_index(self, node, depth, receiver, index, value):
        self.index_read(node, depth, receiver, index)
        self.set_unless(node, depth, "branchunless", value, (3, "[]=", 2, flags(receiver)))

    def set_unless(self, node, depth, branch, value, setter):
        old, behind = Label(), Label()
        below = setter[0]
        self.emit(node.first, "dup")
        self.emit(node.first, branch, old)
        self.emit(node.first, "pop")
        self.node(value, depth + below)
        self.store(node, setter)
        self.emit(node.first, "jump", behind)
        self.seq.reach(old)
        self.emit(node.first, "setn", below)
        self.emit(node.first, "adjuststack", below)
        self.seq.reach(behind)

    # calls

    def on_send(self, node, depth, receiver, name, is_bare, nodes, spread, value, block):
        if receiver:
            self.node(receiver, depth)
        else:
            self.emit(node.first, "putself")
        flag = flags(receiver, value) + (4 if is_bare else 0)
        call = ("send", name, len(nodes), *splats(spread), Flags(flag))
        self.call(node, depth, nodes, value, call, block)

    def on_safe_send(self, node, depth, receiver, name, nodes, spread, value, block):
        behind = Label()
        self.node(receiver, depth)
        self.emit(node.first, "dup")
        self.emit(node.first, "branchnil", behind)
        call = ("send", name, len(nodes), *splats(spread), Flags(flags(receiver, value)))
        self.call(node, depth, nodes, value, call, block)
        self.seq.reach(behind)

    def on_super(self, node, depth, nodes, spread, value, block):
        self.emit(node.line, "putself")
        call = ("invokesuper", len(nodes), *splats(spread), Flags(flags(None, value)))
        self.call(node, depth, nodes, value, call, block)

    def on_bare_super(self, node, depth, block):
        self.emit(node.line, "putself")
        params = params_of(self.seq.scope.body)
        for name in params:
            self.emit(node.line, "getlocal", *self.seq.scope.place_of(name))
        self.call(node, depth, [], None, ("invokesuper", len(params), Flags(1)), block)

    def call(self, node, depth, nodes, value, call, block):
        """Arguments and block value behind a receiver, and the call."""
        self.nodes(nodes + ([value] if value else []), depth + 1)
        place, behind = len(self.seq.code), Label()
        if block:
            number = self.body("block", block)
            self.emit(node.line, *call, Seq(number))
            self.seq.reach(behind)
            self.seq.rows.append(Row("break", place, place + 1, behind, depth))
        else:
            self.emit(node.line, *call)

    def on_yield(self, node, depth, nodes, spread):
        self.nodes(nodes, depth)
        self.emit(node.line, "invokeblock", len(nodes), *splats(spread))

    def on_bare_raise(self, node, depth):
        self.emit(node.line, "putself")
        self.emit(node.line, "topn", depth)
        self.send(node.line, "raise", 1, 1)

    # control

    def on_statements(self, node, depth, nodes):
        if not nodes:
            self.emit(node.line, "putnil")
        for index, statement in enumerate(nodes):
            if index > 0:
                self.emit(node.line, "pop")
            self.node(statement, depth)

    def on_both(self, node, depth, left, right, branch="branchunless"):
        behind = Label()
        self.node(left, depth)
        self.emit(node.line, "dup")
        self.emit(node.line, branch, behind)
        self.emit(node.line, "pop")
        self.node(right, depth)
        self.seq.reach(behind)

    def on_either(self, node, depth, left, right):
        self.on_both(node, depth, left, right, "branchif")

    def on_negated(self, node, depth, operand):
        self.node(operand, depth)
        self.send(node.line, "!", 0, flags(operand))

    def on_if_else(self, node, depth, test, then, other):
        otherwise, behind = Label(), Label()
        self.node(test, depth)
        self.emit(node.line, "branchunless", otherwise)
        self.node(then, depth)
        self.emit(node.line, "jump", behind)
        self.seq.reach(otherwise)
        self.other(other, depth)
        self.seq.reach(behind)

    def other(self, node, depth):
        if node:
            self.node(node, depth)
        else:
            self.emit(self.seq.first_line, "putnil")

    def on_while_loop(self, node, depth, body, test, is_until, body_first):
        start, condition, behind = Label(), Label(), Label()
        if not body_first:
            self.emit(node.line, "jump", condition)
        self.seq.reach(start)
        Emitter(self.compiler, self.seq, True).node(body, depth)
        after_body = Label()
        self.seq.reach(after_body)
        rows = [Row("break", start.place, after_body.place, behind, depth)]
        rows += [Row("next", start.place, after_body.place, after_body, depth)]
        self.seq.rows += rows
        self.emit(node.line, "pop")
        self.seq.reach(condition)
        self.node(test, depth)
        self.emit(node.line, "branchunless" if is_until else "branchif", start)
        self.emit(node.line, "putnil")
        self.seq.reach(behind)

    def on_case_of(self, node, depth, value, whens, other):
        self.node(value, depth)
        hits = [Label() for _ in whens]
        for (patterns, _), hit in zip(whens, hits):
            for pattern in patterns:
                self.node(pattern, depth + 1)
                self.emit(node.line, "topn", 1)
                self.send(self.seq.first_line, "===", 1, flags(pattern))
                self.emit(node.line, "branchif", hit)
        self.emit(node.line, "pop")
        self.hits(node, depth, whens, hits, other, ["pop"])

    def on_case_tests(self, node, depth, whens, other):
        hits = [Label() for _ in whens]
        for (tests, _), hit in zip(whens, hits):
            for test in tests:
                self.node(test, depth)
                self.emit(node.line, "branchif", hit)
        self.hits(node, depth, whens, hits, other, [])

    def hits(self, node, depth, whens, hits, other, dropped):
        behind = Label()
        self.other(other, depth)
        self.emit(node.line, "jump", behind)
        for (_, body), hit in zip(whens, hits):
            self.seq.reach(hit)
            for word in dropped:
                self.emit(node.line, word)
            self.node(body, depth)
            self.emit(node.line, "jump", behind)
        self.seq.reach(behind)

    # exits and handlers

    def exit(self, node, depth, values, number):
        self.values(values, depth, node.line)
        self.emit(node.line, "throw", number)

    def on_return(self, node, depth, values):
        self.exit(node, depth, values, 1)

    def on_break(self, node, depth, values):
        self.exit(node, depth, values, 2 if self.in_loop else 4)

    def on_next(self, node, depth, values):
        self.exit(node, depth, values, 3 if self.in_loop else 5)

    def on_retry(self, node, depth, values):
        self.exit(node, depth, [], 7)

    def on_rescue(self, node, depth, body, other, clauses):
        start, end, behind = len(self.seq.code), Label(), Label()
        self.node(body, depth)
        self.seq.reach(end)
        number = self.section("rescue", clauses)
        self.seq.rows.append(Row("rescue", start, end.place, behind, depth, number))
        if other:
            self.emit(node.line, "pop")
            self.node(other, depth)
        self.seq.reach(behind)

    def on_ensure(self, node, depth, body, last):
        start, behind = len(self.seq.code), Label()
        self.node(body, depth)
        self.emit(node.line, "throw", 6)
        self.seq.reach(behind)
        number = self.section("ensure", last)
        self.seq.rows.append(Row("ensure", start, behind.place, behind, depth, number))

    def on_rescue_sequence(self, node, depth, clauses):
        hits = [Label() for _ in clauses]
        for (classes, _, _), hit in zip(clauses, hits):
            for each in classes or [None]:
                self.emit(node.line, "dup")
                if each:
                    self.node(each, depth + 1)
                else:
                    line = self.seq.first_line
                    self.emit(line, "opt_getconstant_path", 1, "StandardError")
                self.emit(node.line, "checkmatch")
                self.emit(node.line, "branchif", hit)
        self.emit(node.line, "throw", 0)
        for (_, name, body), hit in zip(clauses, hits):
            self.seq.reach(hit)
            if name:
                self.emit(node.line, "dup")
                self.set_target(node.line, name)
            self.node(body, depth)
            self.emit(node.line, "leave")

    def on_ensure_sequence(self, node, depth, body):
        self.node(body, depth)
        self.emit(node.line, "pop")
        self.emit(node.line, "throw", 0)

    # definitions

    def on_method(self, node, depth, name, body, on_self):
        number = self.body("method", body, name)
        self.emit(node.line, "definemethod", name, Seq(number), int(on_self))
        self.emit(node.line, "putobject", ":" + name)

    def on_class(self, node, depth, name, superclass, body):
        if superclass:
            self.node(superclass, depth)
        else:
            self.emit(node.line, "putnil")
        kind = 1 if superclass else 0
        self.emit(node.line, "defineclass", name, Seq(self.body("class", body, name)), kind)

    def on_module(self, node, depth, name, body):
        self.emit(node.line, "putnil")
        self.emit(node.line, "defineclass", name, Seq(self.body("class", body, name)), 2)

    def on_body(self, node, depth, params, statements):
        optional = [(name, default) for kind, name, default in params if kind == "optional"]
        for name, default in optional:
            self.seq.entries.append(len(self.seq.code))
            self.node(default, depth)
            self.set_target(self.seq.first_line, name)
        if optional:
            self.seq.entries.append(len(self.seq.code))
        self.node(statements, depth)
        self.emit(self.seq.first_line, "leave")


# operands that are no plain numbers or names


@dataclass(frozen=True)
class Text:
    text: str


@dataclass(frozen=True)
class Flags:
    bits: int


@dataclass(frozen=True)
class Seq:
    number: int


@dataclass(frozen=True)
class Splats:
    places: tuple


def splats(places):
    return [Splats(tuple(places))] if places else []


def flags(receiver, value=None):
    """1 for the receiver self, 2 for a block value."""
    is_self = receiver is None or receiver.form == "self"
    return (1 if is_self else 0) + (2 if value else 0)
