"""The locals of a body, in the order of the text, and what a block sees of those around it."""

from outline import Node

INNER = ("method", "module")
BY_PLACE = ("if_else", "while_loop", "rescue")
ASSIGNMENTS = ("assign", "assign_all")


def nodes_in(part):
    """The nodes of a part, which may be a node, lists of them, or none."""
    if isinstance(part, Node):
        yield part
    elif isinstance(part, (list, tuple)):
        for inner in part:
            yield from nodes_in(inner)


def block_of(node):
    """The block that a call has."""
    last = node.parts[-1] if node.parts else None
    is_call = node.form in ("send", "safe_send", "super", "bare_super")
    return last if is_call and isinstance(last, Node) else None


def is_local(name):
    return name[0] not in "@$" and not name[0].isupper()


def events(node):
    """The names that a part of a body makes locals, and its blocks, in the order of the text."""
    block = block_of(node)
    if node.form in INNER:
        parts = []
    elif node.form == "class":
        parts = nodes_in(node.parts[1])
    elif node.form in BY_PLACE:
        parts = sorted(nodes_in(node.parts), key=lambda part: part.place)
    else:
        parts = [part for part in nodes_in(node.parts) if part is not block]
    if node.form in ASSIGNMENTS:
        targets = node.parts[1] if node.form == "assign_all" else [node.parts[1]]
        yield from filter(is_local, targets)
    if node.form == "rescue_sequence":
        for classes, name, body in node.parts[0]:
            yield from events_of(classes)
            yield from [name] if name else []
            yield from events(body)
        return
    if node.form == "body":
        for _, name, default in node.parts[0]:
            yield name
            yield from events_of(nodes_in(default))
        parts = [node.parts[1]]
    yield from events_of(parts)
    if block:
        yield block


def events_of(nodes):
    for node in nodes:
        yield from events(node)


def params_of(body):
    return [name for _, name, _ in body.parts[0]] if body.form == "body" else []


def names_until(body, block=None):
    """The names that are locals of the body where a block of it stands, or at its end."""
    names = []
    for event in events(body):
        if event is block:
            break
        if isinstance(event, str) and event not in names:
            names.append(event)
    return names


class Scope:
    """The locals of a body, and those that it sees around it."""

    def __init__(self, body, outer=None):
        self.body = body
        self.outer = outer
        self.seen = names_until(outer.body, body) + outer.seen if outer else []
        params = params_of(body)
        known = params + self.seen
        self.locals = params + [name for name in names_until(body) if name not in known]

    def place_of(self, name):
        """The slot and the level of a local."""
        scope, level = self, 0
        while name not in scope.locals:
            scope, level = scope.outer, level + 1
        return scope.locals.index(name), level
