"""Reads the outlines of trees that `gate_reader_rows` prints behind a line `# with positions`."""

import re
from dataclasses import dataclass

POSITION = re.compile(r"@(\d+)\.(\d+)\.(\d+)")
BEHIND = r"(?=@\d+\.\d+\.\d+(?:[ )}\]|]|::|$))"  # what a literal ends at
INTEGER = re.compile(r"-?\d+")
SYMBOL = re.compile(":(.+?)" + BEHIND, re.DOTALL)
STRING = re.compile('"(.*?)"' + BEHIND, re.DOTALL)
PLAIN_PIECE = re.compile(r'"([^"]*)"')
CONSTANTS = re.compile(r"(?:::)?[A-Z]\w*(?:::[A-Z]\w*)*")
MORE_CONSTANTS = re.compile(r"(?:::[A-Z]\w*)+")
VARIABLE = re.compile(r'@\w+|\$(?:\w+|[:"])|_?[a-z_]\w*[?!]?')
WORD = re.compile(r"[^ )|]+\|*[^ )|]*")
METHOD_NAME = re.compile(r"[^ )]+")
PARAMETER = re.compile(r"([*&]?)([a-z_]\w*)(=?)")

LITERALS = {
    "nil": "nil", "true": "true", "false": "false", "self": "self",
    "__FILE__": "file", "__dir__": "folder", "__LINE__": "line_number",
}
LOOPS = {
    "while": (False, False), "until": (True, False),
    "do-while": (False, True), "do-until": (True, True),
}
HEADS = {"and": "both", "or": "either", "not": "negated", "if": "if_else"}
EXITS = ("return", "break", "next", "retry")


@dataclass(frozen=True)
class Node:
    """A node: its form, its parts, the line of its first token, its own line, and its place."""

    form: str
    parts: tuple
    first: int
    line: int
    place: int


class Outline:
    """An outline, and how far it is read."""

    def __init__(self, text):
        self.text = text
        self.at = 0

    def rest(self):
        return f"{self.text[self.at:self.at + 40]!r} at {self.at}"

    def sees(self, piece):
        return self.text.startswith(piece, self.at)

    def skips(self, piece):
        if not self.sees(piece):
            return False
        self.at += len(piece)
        return True

    def expect(self, piece):
        if not self.skips(piece):
            raise ValueError(f"no {piece!r} in front of {self.rest()}")

    def match(self, pattern):
        found = pattern.match(self.text, self.at)
        if not found:
            raise ValueError(f"no {pattern.pattern} in front of {self.rest()}")
        self.at = found.end()
        return found

    def maybe(self, pattern):
        found = pattern.match(self.text, self.at)
        if found:
            self.at = found.end()
        return found

    def placed(self, form, parts):
        first, line, place = map(int, self.match(POSITION).groups())
        return Node(form, parts, first, line, place)

    def whole(self):
        root = self.node()
        if self.at != len(self.text):
            raise ValueError(f"more behind the tree: {self.rest()}")
        return root

    def node(self):
        node = self.placed(*self.core())
        while names := self.maybe(MORE_CONSTANTS):
            node = self.placed("constant_path", (node, False, names[0].split("::")[1:]))
        return node

    def core(self):
        if self.skips("{"):
            return "statements", (self.nodes_until("}"),)
        if self.skips("["):
            nodes, spread = self.spread_until("]")
            return "array", (nodes, spread)
        if self.skips("("):
            return self.bracketed()
        if self.sees('"'):
            return "text", (self.match(STRING)[1],)
        if path := self.maybe(CONSTANTS):
            begins_at_top = path[0].startswith("::")
            return "constant_path", (None, begins_at_top, path[0].removeprefix("::").split("::"))
        if self.sees(":"):
            return "symbol", (self.match(SYMBOL)[1],)
        if number := self.maybe(INTEGER):
            return "integer", (int(number[0]),)
        return self.variable(self.match(VARIABLE)[0])

    def variable(self, name):
        if name in LITERALS:
            return LITERALS[name], ()
        kinds = {"@": "instance", "$": "global"}
        return kinds.get(name[0], "local"), (name,)

    # several nodes, with blanks between them

    def nodes_until(self, end):
        nodes, spread = self.spread_until(end)
        if spread:
            raise ValueError(f"something is spread before {self.rest()}")
        return nodes

    def spread_until(self, end):
        nodes, spread = self.spread()
        self.expect(end)
        return nodes, spread

    def spread(self, stops=(" &", " => ", " (|")):
        """Nodes, and the places of those that are spread, up to an end or one of these."""
        nodes, spread = [], []
        while self.text[self.at] not in ")}]" and not any(map(self.sees, stops)):
            self.skips(" ")
            if self.skips("*"):
                spread.append(len(nodes))
            nodes.append(self.node())
        return nodes, spread

    def part(self):
        self.expect(" ")
        return self.node()

    def maybe_part(self, before=" "):
        return self.node() if self.skips(before) else None

    def name(self):
        self.expect(" ")
        return self.match(METHOD_NAME)[0]

    # what stands in brackets

    def bracketed(self):
        if self.skips("|"):
            return self.body()
        word = self.match(WORD)[0]
        form, parts = self.behind(word)
        self.expect(")")
        return form, parts

    def behind(self, word):
        if word in LOOPS:
            body, test = self.part(), self.part()
            return "while_loop", (body, test, *LOOPS[word])
        if word in HEADS:
            return HEADS[word], self.operands(word)
        if word in EXITS:
            return word, (self.spread()[0],)
        return getattr(self, "read_" + self.METHODS[word])()

    METHODS = {
        "text": "joined", "hash": "hash", "..": "range", "...": "open_range", "=": "assign",
        ".=": "assign_attribute", ".op=": "operate_attribute", ".||=": "or_attribute",
        ".&&=": "and_attribute", "[]=": "assign_index", "[]op=": "operate_index",
        "[]||=": "or_index", "[]&&=": "and_index", "send": "send", "bare": "bare", "safe": "safe",
        "yield": "yield", "super": "super", "zsuper": "bare_super", "reraise": "bare_raise",
        "case": "case", "case-tests": "case_tests", "rescue": "rescue", "ensure": "ensure",
        "seq": "clauses", "last": "last", "def": "def", "defs": "defs", "class": "class",
        "module": "module",
    }

    def operands(self, word):
        if word == "not":
            return (self.part(),)
        first, second = self.part(), self.part()
        return (first, second, self.maybe_part()) if word == "if" else (first, second)

    def read_joined(self):
        pieces = []
        while self.skips(" "):
            plain = self.maybe(PLAIN_PIECE)
            pieces.append(plain[1] if plain else self.node())
        return "joined", (pieces,)

    def read_hash(self):
        return "hash", (self.spread()[0],)

    def read_range(self):
        return "range", (self.part(), self.part(), False)

    def read_open_range(self):
        return "range", (self.part(), self.part(), True)

    def read_assign(self):
        targets = self.name().split(",")
        values = self.spread()[0]
        if len(targets) == 1:
            return "assign", (values[0], targets[0])
        return "assign_all", (values, targets)

    def read_assign_attribute(self):
        receiver, setter, value = self.part(), self.name(), self.part()
        return "assign_attribute", (receiver, value, setter)

    def read_operate_attribute(self):
        receiver, name, value = self.part(), self.name(), self.part()
        return "operate_attribute", (receiver, name, value, self.name(), self.name(), self.line())

    def read_or_attribute(self):
        return "or_attribute", (self.part(), self.name(), self.part(), self.name())

    def read_and_attribute(self):
        return "and_attribute", self.read_or_attribute()[1]

    def read_assign_index(self):
        return "assign_index", (self.part(), self.part(), self.part())

    def read_operate_index(self):
        return "operate_index", (*self.read_assign_index()[1], self.name(), self.line())

    def read_or_index(self):
        return "or_index", self.read_assign_index()[1]

    def read_and_index(self):
        return "and_index", self.read_assign_index()[1]

    def line(self):
        self.expect(" ")
        return int(self.match(INTEGER)[0])

    def read_send(self):
        receiver = None
        if not self.skips(" _ "):
            receiver = self.part()
            self.expect(" ")
        name = self.match(METHOD_NAME)[0]
        return self.call_behind("send", (receiver, name, False))

    def read_bare(self):
        return self.call_behind("send", (None, self.name(), True))

    def read_safe(self):
        return self.call_behind("safe_send", (self.part(), self.name()))

    def call_behind(self, form, front):
        nodes, spread = self.spread()
        return form, (*front, nodes, spread, self.maybe_part(" &"), self.maybe_part())

    def read_yield(self):
        return "yield", self.spread()

    def read_super(self):
        return self.call_behind("super", ())

    def read_bare_super(self):
        return "bare_super", (self.maybe_part(),)

    def read_bare_raise(self):
        return "bare_raise", ()

    def read_case(self):
        return "case_of", (self.part(), *self.whens())

    def read_case_tests(self):
        return "case_tests", self.whens()

    def whens(self):
        whens = []
        while self.skips(" (when"):
            *tests, body = self.nodes_until(")")
            whens.append((tests, body))
        return whens, self.maybe_part()

    def read_rescue(self):
        body, *other, clauses = self.spread()[0]
        return "rescue", (body, other[0] if other else None, clauses)

    def read_ensure(self):
        return "ensure", (self.part(), self.part())

    def read_clauses(self):
        clauses = []
        while self.skips(" (on"):
            nodes, _ = self.spread()
            name = self.match(METHOD_NAME)[0] if self.skips(" => ") else None
            body = self.part() if name else nodes.pop()
            clauses.append((nodes, name, body))
            self.expect(")")
        return "rescue_sequence", (clauses,)

    def read_last(self):
        return "ensure_sequence", (self.part(),)

    def read_def(self):
        return "method", (self.name(), self.part(), False)

    def read_defs(self):
        return "method", (self.name(), self.part(), True)

    def read_class(self):
        name = self.name()
        superclass = self.maybe_part(" < ")
        return "class", (name, superclass, self.part())

    def read_module(self):
        return "module", (self.name(), self.part())

    def body(self):
        params = []
        while not self.skips("|"):
            self.skips(" ")
            mark, name, has_default = self.match(PARAMETER).groups()
            kind = {"*": "rest", "&": "block"}.get(mark, "required")
            default = self.node() if has_default else None
            params.append(("optional" if default else kind, name, default))
        statements = self.part()
        self.expect(")")
        return "body", (params, statements)
