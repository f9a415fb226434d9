"""Prints the listings of units for the rows of outlines that stand on the input.

Each line of the input that begins with `"` is a row of `gate_reader_rows` behind `# with
positions`; it is printed without its outline, and the listing of its unit behind it. A line
`# path PATH` says where the texts behind it stand, and each other line is printed as it stands.
"""

import re
import sys

from checks import check
from outline import Outline
from table import Compiler, Flags, Seq, Splats, Text

ROW = re.compile(r'("(?:[^"\\]|\\.)*")  ->  (.*)', re.DOTALL)
ESCAPE = re.compile(r"\\(?:u\{([0-9a-f]+)\}|(.))", re.DOTALL)
SIMPLE = {"n": "\n", "t": "\t", "r": "\r", "0": "\0"}
ESCAPES = str.maketrans({"\\": "\\\\", "\n": "\\n", "\t": "\\t", "\r": "\\r", '"': '\\"'})


def unescaped(text):
    def meant(found):
        code, letter = found.groups()
        return chr(int(code, 16)) if code else SIMPLE.get(letter, letter)
    return ESCAPE.sub(meant, text)


def escaped(text):
    return text.translate(ESCAPES)


def operand(value):
    if isinstance(value, Text):
        return f'"{escaped(value.text)}"'
    if isinstance(value, Flags):
        return f"flags {value.bits}"
    if isinstance(value, Seq):
        return f"seq {value.number}"
    if isinstance(value, Splats):
        return "*" + ",".join(map(str, value.places))
    return escaped(str(value))


def head(sequence):
    name = f" name {sequence.name}" if sequence.name else ""
    place = f"parent {sequence.parent} line {sequence.first_line}"
    yield f"seq {sequence.number} {sequence.kind} {place}{name}"
    if sequence.locals():
        yield "  locals " + " ".join(sequence.locals())
    params = [f"required {len(names)}" for names in [sequence.params("required")] if names]
    params += ["entries " + " ".join(map(str, sequence.entries))] if sequence.entries else []
    params += [kind for kind in ("rest", "block") if sequence.params(kind)]
    if params:
        yield "  params " + " ".join(params)


def row_line(row):
    seq = f" seq {row.seq}" if row.kind in ("rescue", "ensure") else ""
    return f"  row {row.kind} {row.start} {row.end} cont {row.cont} sp {row.depth}{seq}"


def listing(path, root):
    """The lines of the listing of a program's unit."""
    sequences = Compiler(path, root).in_order()
    check(sequences)
    yield f"unit {path}"
    for sequence in sequences:
        yield from head(sequence)
        yield from map(row_line, sequence.rows)
        for place, (line, word, operands) in enumerate(sequence.code):
            yield "  " + " ".join([f"{place} @{line}", word, *map(operand, operands)])


def main():
    path = "/app/main.rb"
    for line in sys.stdin.read().split("\n")[:-1]:
        row = ROW.fullmatch(line)
        if not row:
            path = line.removeprefix("# path ") if line.startswith("# path ") else path
            print(line)
            continue
        text, outline = row.groups()
        if outline.startswith("!"):
            raise ValueError(f"no Ruby: {text}")
        try:
            print(text)
            for each in listing(path, Outline(unescaped(outline)).whole()):
                print(each)
            print()
        except (AssertionError, ValueError, KeyError, AttributeError) as error:
            raise ValueError(f"no listing of {text}") from error


if __name__ == "__main__":
    sys.setrecursionlimit(20000)
    main()
