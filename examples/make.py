#!/usr/bin/env python3
"""Writes the example files of this folder: books, level table, input levels, and the texts beside them.

    python3 examples/make.py            write them
    python3 examples/make.py --check    say whether they are what this program writes

Bytes and texts come from the same lines, so a text cannot tell of other bytes than its book has.
"""
import sys
from pathlib import Path

FOLDER = Path(__file__).resolve().parent

# A part of a body is a list of lines (indent, bytes, text).


def deeper(*parts):
    return [(indent + 1, data, text) for part in parts for indent, data, text in part]


def end(text):
    return [(0, b"\x00", text)]


class Names:
    """The forms of the document's table, for a procedure whose variables have these names."""

    def __init__(self, *names):
        self.names = names

    def number(self, name):
        return self.names.index(name)

    def set(self, name, value):
        number = self.number(name)
        return [(0, bytes([0x01, number]), f"set {name} (variable {number}) to")] + deeper(value)

    def while_do(self, condition, *inside):
        return ([(0, b"\x03", "while this is not 0:")] + deeper(condition)
                + deeper(*inside) + end("end of the loop"))

    def give(self, value):
        return [(0, b"\x04", "return")] + deeper(value)

    def pick(self, condition, first, second):
        return ([(0, b"\x05", "closing if: if this is not 0 the first sequence, else the second")]
                + deeper(condition, first, second))

    def constant(self, number):
        return [(0, b"\x10" + number.to_bytes(4, "little"), f"the constant {number}")]

    def variable(self, name):
        number = self.number(name)
        return [(0, bytes([0x11, number]), f"{name} (variable {number})")]

    def operation(self, name, left, right):
        names = ["sum", "difference", "product", "quotient", "equal", "less", "smaller", "larger"]
        number = names.index(name)
        return [(0, bytes([0x12, number]), f"operation {number}, {name}, of")] + deeper(left, right)

    def call(self, number, name, *arguments):
        text = f"call procedure {number}, {name}, with"
        return [(0, bytes([0x13, number]), text)] + deeper(*arguments)


class Procedure:
    def __init__(self, name, parameters, local_names, body):
        self.name = name
        self.parameters = parameters
        self.locals = local_names
        self.lines = [line for part in body(Names(*parameters, *local_names)) for line in part]
        self.bytes = b"".join(data for _, data, _ in self.lines)


def joined(names):
    return ", ".join(names) if names else "none"


def book(procedures):
    """The book's bytes, and its text byte by byte."""
    lines = [(bytes([len(procedures)]), "the number of procedures")]
    start = 1 + 6 * len(procedures)
    starts = []
    for number, procedure in enumerate(procedures):
        length = len(procedure.bytes)
        starts.append(start)
        lines.append((start.to_bytes(2, "little"), f"procedure {number}, {procedure.name}: its body starts at {start}"))
        lines.append((length.to_bytes(2, "little"), f"and has {length} bytes"))
        lines.append((bytes([len(procedure.parameters)]), f"parameters: {joined(procedure.parameters)}"))
        lines.append((bytes([len(procedure.locals)]), f"locals: {joined(procedure.locals)}"))
        start += length
    data = b"".join(part for part, _ in lines)
    text = shown(0, lines)
    for number, procedure in enumerate(procedures):
        names = joined([*procedure.parameters, *procedure.locals])
        text += f"\nBody of procedure {number}, {procedure.name}; variables from 0: {names}\n\n"
        text += shown(starts[number], [(part, "  " * indent + words) for indent, part, words in procedure.lines])
        data += procedure.bytes
    return data, text


def shown(place, lines):
    text = ""
    for part, words in lines:
        text += f"{place:5}  {part.hex(' ').upper():<18} {words}\n"
        place += len(part)
    return text


# ---- The recipes ----

PHOTO = ["glaze", "cloth", "card", "bench"]


def which():
    """Both recipes end with it: 2 for cloth, 1 for glaze."""
    def body(n):
        return [n.pick(n.operation("less", n.variable("glaze"), n.variable("cloth")),
                       n.give(n.constant(2)),
                       n.give(n.constant(1)))]
    return Procedure("which", ["glaze", "cloth"], [], body)


def steady():
    def tag(n):
        return [
            n.set("best", n.call(1, "stronger", n.variable("glaze"), n.variable("cloth"), n.variable("card"))),
            n.set("card", n.operation("quotient", n.variable("bench"), n.constant(10))),
            n.pick(n.operation("less", n.variable("best"), n.variable("card")),
                   n.give(n.constant(0)),
                   n.give(n.call(2, "which", n.variable("glaze"), n.variable("cloth")))),
        ]

    def stronger(n):
        return [
            n.while_do(n.operation("less", n.constant(100), n.variable("light")),
                       n.set("light", n.operation("difference", n.variable("light"), n.constant(100)))),
            n.give(n.operation("larger", n.variable("first"), n.variable("second"))),
        ]

    return [
        Procedure("tag", PHOTO, ["best"], tag),
        Procedure("stronger", ["first", "second", "light"], [], stronger),
        which(),
    ]


def leaning():
    def tag(n):
        return [
            n.set("left", n.operation("quotient", n.variable("bench"), n.constant(50))),
            n.while_do(
                n.variable("left"),
                n.set("glaze", n.operation("difference", n.variable("glaze"),
                                           n.operation("smaller", n.variable("glaze"), n.variable("shade")))),
                n.set("shade", n.operation("quotient", n.variable("card"), n.constant(4))),
                n.set("left", n.operation("difference", n.variable("left"), n.constant(1)))),
            n.give(n.call(1, "which", n.variable("glaze"), n.variable("cloth"))),
        ]

    return [Procedure("tag", PHOTO, ["left", "shade"], tag), which()]


STEADY = """\
steady.book: a recipe whose tag does not rest on the colour card
================================================================

Inputs of procedure 0: two scores of the masked object (glaze, cloth), the reading of the colour
card, the reading of the bench. The tag is 1 for glaze, 2 for cloth, 0 for neither.

    tag(glaze, cloth, card, bench):
        best := stronger(glaze, cloth, card)
        card := bench / 10                        the variable is used again for something else
        if best < card: return 0                  too dark to say
        return which(glaze, cloth)

    stronger(first, second, light):
        while 100 < light: light := light - 100
        return larger of first and second

    which(glaze, cloth):
        if glaze < cloth: return 2, else return 1

The card is read, handed to a procedure and turned round a loop, and still its number cannot reach
the tag: `stronger` only counts with it, and `card := bench / 10` replaces it.

The least summary, found in 3 rounds: 0B 03 03, then the row 01 02 04 of the one loop. The result
set of procedure 0 is 0B, bits 0, 1 and 3: glaze, cloth and bench, not card. With diamond.table and
photo.levels the reported level is 2, bench.

The book, byte by byte: place, bytes in hexadecimal, meaning
------------------------------------------------------------

"""

LEANING = """\
leaning.book: a recipe whose tag rests on the colour card
=========================================================

The same inputs and tags as in steady.book.

    tag(glaze, cloth, card, bench):
        left := bench / 50
        while left:
            glaze := glaze - smaller of glaze and shade
            shade := card / 4
            left := left - 1
        return which(glaze, cloth)

    which(glaze, cloth):
        if glaze < cloth: return 2, else return 1

In the first turn shade is still 0; in the second it holds a quarter of the card's reading, and that
goes off the glaze score. Whoever follows the loop for one turn only does not see it.

The least summary, found in 5 rounds: 0F 03, then the row of the one loop, 0D 02 04 08 08 0C. The
result set of procedure 0 is 0F: glaze, cloth, card and bench. With diamond.table and photo.levels the
reported level is 3, top, the join of card and bench.

The book, byte by byte: place, bytes in hexadecimal, meaning
------------------------------------------------------------

"""

DIAMOND = """\
diamond.table and photo.levels
==============================

Four levels: 0 object, 1 card, 2 bench, 3 top. Object is at the bottom; card and bench stand beside
each other, neither at or below the other; top is their join.

          3 top
         /     \\
     1 card   2 bench
         \\     /
        0 object

diamond.table, byte by byte: place, bytes in hexadecimal, meaning
------------------------------------------------------------------

"""

LEVELS = """
photo.levels: the levels of the inputs of procedure 0 in both books
--------------------------------------------------------------------

"""


def files():
    written = {}
    for name, preface, procedures in [("steady", STEADY, steady()), ("leaning", LEANING, leaning())]:
        data, text = book(procedures)
        written[f"{name}.book"] = data
        written[f"{name}.txt"] = (preface + text).encode()
    names = ["object", "card", "bench", "top"]
    # Levels as sets of bits: the join is the union.
    joins = [bytes(a | b for b in range(4)) for a in range(4)]
    lines = [(b"\x04", "the number of levels")]
    lines += [(row, f"{names[a]} joined with {', '.join(names)}") for a, row in enumerate(joins)]
    levels = [(b"\x00", "glaze: object"), (b"\x00", "cloth: object"), (b"\x01", "card: card"), (b"\x02", "bench: bench")]
    written["diamond.table"] = b"".join(part for part, _ in lines)
    written["photo.levels"] = b"".join(part for part, _ in levels)
    written["diamond.txt"] = (DIAMOND + shown(0, lines) + LEVELS + shown(0, levels)).encode()
    return written


def main():
    if sys.argv[1:] == ["--check"]:
        wrong = [name for name, data in files().items() if (FOLDER / name).read_bytes() != data]
        sys.exit(f"not as written: {', '.join(wrong)}" if wrong else 0)
    for name, data in files().items():
        (FOLDER / name).write_bytes(data)


if __name__ == "__main__":
    main()
