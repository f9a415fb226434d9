"""Checks the sequences of a unit: rows in order, targets inside, and one depth at each place."""

# how many values an instruction takes, and how many it puts
EFFECTS = {
    "pop": (1, 0), "dup": (1, 2), "putnil": (0, 1), "putself": (0, 1), "putobject": (0, 1),
    "putstring": (0, 1), "getlocal": (0, 1), "setlocal": (1, 0), "getinstancevariable": (0, 1),
    "setinstancevariable": (1, 0), "getglobal": (0, 1), "setglobal": (1, 0), "setconstant": (1, 0),
    "newrange": (2, 1), "objtostring": (1, 1), "anytostring": (2, 1), "definemethod": (0, 0),
    "defineclass": (1, 1), "checkmatch": (2, 1), "jump": (0, 0), "branchif": (1, 0),
    "branchunless": (1, 0), "branchnil": (1, 0), "leave": (1, 0),
}
JUMPS = ("jump", "branchif", "branchunless", "branchnil")


def effect(word, operands):
    """How many values are needed, taken and put."""
    count = operands[0] if operands else 0
    if word in EFFECTS:
        taken, put = EFFECTS[word]
        return taken, taken, put
    if word in ("topn", "setn"):
        return count + 1, 0, int(word == "topn")
    if word == "adjuststack":
        return count, count, 0
    if word == "throw":
        return int(count != 0), int(count != 0), int(count != 0)
    if word == "expandarray":
        return 1, 1, count
    if word == "opt_getconstant_path":
        return int(count == 2), int(count == 2), 1
    if word in ("newarray", "newhash", "concatstrings", "invokeblock"):
        return count, count, 1
    count = operands[1] if word == "send" else operands[0]
    has_value = any(getattr(operand, "bits", 0) & 2 for operand in operands)
    return count + 1 + has_value, count + 1 + has_value, 1


def ways(sequence):
    """The places at which ways begin, each with its depth."""
    yield 0, 1 if sequence.kind == "rescue" else 0
    for place in sequence.entries:
        yield place, 0
    for row in sequence.rows:
        yield row.cont.place, row.depth + 1
        if row.kind == "rescue":
            yield row.start, row.depth


def depths_of(sequence):
    """The depth at each place that some way leads to."""
    depths, waiting = {}, list(ways(sequence))
    while waiting:
        place, depth = waiting.pop()
        if place in depths:
            assert depths[place] == depth, f"two depths at {place}"
            continue
        depths[place] = depth
        _, word, operands = sequence.code[place]
        needed, taken, put = effect(word, operands)
        assert needed <= depth, f"too little on the stack at {place}"
        after = depth - taken + put
        if word in JUMPS:
            assert 0 <= operands[0].place < len(sequence.code), f"a target outside at {place}"
            waiting.append((operands[0].place, after))
        if word not in ("jump", "leave") and (word, operands) != ("throw", (0,)):
            waiting.append((place + 1, after))
    return depths


def check_rows(sequence, depths):
    assert sequence.rows == sorted(sequence.rows, key=lambda row: row.order()), "rows out of order"
    for row in sequence.rows:
        assert 0 <= row.start < row.end <= row.cont.place < len(sequence.code), "a row outside"
        for place in range(row.start, row.end):
            _, word, operands = sequence.code[place]
            low = depths[place] - effect(word, operands)[1] if place in depths else row.depth
            assert low >= row.depth, f"below a row at {place}"
        if row.kind == "rescue":
            assert depths[row.start] == row.depth, "a rescue row at another depth"


def check_operands(sequence, children):
    """Sequences are children of the right kind, and locals exist."""
    kinds = {"send": "block", "invokesuper": "block", "definemethod": "method"}
    for _, word, operands in sequence.code:
        for operand in operands:
            number = getattr(operand, "number", None)
            if number is not None:
                assert children[number] == (kinds.get(word, "class"), sequence.number)
        if word in ("getlocal", "setlocal"):
            scope = sequence.scope
            for _ in range(operands[1]):
                scope = scope.outer
            assert operands[0] < len(scope.locals), "no such local"
    for row in sequence.rows:
        if row.kind in ("rescue", "ensure"):
            assert children[row.seq] == (row.kind, sequence.number)


def check(sequences):
    children = {each.number: (each.kind, each.parent) for each in sequences}
    places = [each.node.place for each in sequences[1:]]
    assert places == sorted(set(places)), "sequences out of order"
    for number, each in enumerate(sequences):
        assert each.number == number and each.parent <= max(number - 1, 0)
        check_rows(each, depths_of(each))
        check_operands(each, children)
        assert each.code[-1][1] in ("leave", "jump", "throw"), "a body without an end"
        assert each.kind != "ensure" or all(word != "leave" for _, word, _ in each.code)
