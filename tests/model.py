#!/usr/bin/env python3
"""A model of the programs `console` and `drawing`, written from docs/RULES.md alone.

A symmetry is its operations on a finite torus, and a sheet the ink of each cell of that torus: a cell is laid by
writing to all its images. Homes are looked for among the images, and only where the rules speak of them.

tests/model.py < JOB      prints what `drawing` has to print; writes no windows
tests/model.py --self     compares the model with the outside answers, and says how many agreed
"""
import re
import sys
from itertools import count, zip_longest
from pathlib import Path

import orbits

VECTORS = Path(__file__).resolve().parent / "vectors"
SYMBOLS = list(orbits.GROUPS)
NUMBER = re.compile(r"-?[0-9]+")
HEX = re.compile(r"[0-9a-fA-F]{96}")
WORDS = {
    1: "the ink is above 15",
    2: "a cell is off the span",
    3: "the cell is neutral, and the ink is not its own counterpart",
    4: "the home is outside the frame of the canvas",
    5: "every seat of the canvas is taken",
    6: "the line has more than 4,096 cells",
    7: "the sheet has 65,535 strokes",
    8: "a side is below 1 or above 128",
    9: "the output is too short",
    10: "the palette does not have 48 bytes",
    11: "no plane group has this number",
    12: "the periods are against the rules of the group",
    13: "the vectors are parallel",
    14: "an entry is beyond 256",
    15: "the shift or the matrix is against the rules",
    16: "no span is left, or the hem is too large",
}


class Refused(Exception):
    """A refusal by its number."""

    def __init__(self, number):
        self.number = number


class NotWritten(Exception):
    """The name of a file that cannot be written: one in another folder than the job's, or none of a file."""


def counterpart(ink):
    if not 1 <= ink <= 14:
        return ink
    return ink + 1 if ink % 2 else ink - 1


# An affine map (a, b, e, c, d, f) carries (x, y) to (a x + b y + e, c x + d y + f).


def carry(m, cell):
    x, y = cell
    return m[0] * x + m[1] * y + m[2], m[3] * x + m[4] * y + m[5]


def compose(m, n):
    """First n, then m."""
    e, f = carry(m, (n[2], n[5]))
    return (
        m[0] * n[0] + m[1] * n[3], m[0] * n[1] + m[1] * n[4], e,
        m[3] * n[0] + m[4] * n[3], m[3] * n[1] + m[4] * n[4], f,
    )


def determinant(m):
    return m[0] * m[4] - m[1] * m[3]


def inverse(m):
    d = determinant(m)
    linear = (d * m[4], -d * m[1], 0, -d * m[3], d * m[0], 0)
    e, f = carry(linear, (-m[2], -m[5]))
    return linear[:2] + (e,) + linear[3:5] + (f,)


IDENTITY = (1, 0, 0, 0, 1, 0)


class Tabled:
    span, hem = 1_000_000, 128

    def __init__(self, number, p, q):
        if not 1 <= number <= 17:
            raise Refused(11)
        self.symbol = SYMBOLS[number - 1]
        texts = [part.split(",") for part in orbits.GROUPS[self.symbol].split(";")]
        shifts_x = any("h" in fx for fx, _ in texts)
        shifts_y = any("h" in fy for _, fy in texts)
        if not (1 <= p <= 128 and 1 <= q <= 128) or number >= 10 and p != q or shifts_x and p % 2 or shifts_y and q % 2:
            raise Refused(12)
        self.p, self.q = p, q
        self.positions = [self.row(fx.strip(), p) + self.row(fy.strip(), q) for fx, fy in texts]

    @staticmethod
    def row(text, period):
        """The coefficients of x and y and the constant of one coordinate."""
        at = lambda x, y: eval(text, {"x": x, "y": y, "h": period // 2})
        return at(1, 0) - at(0, 0), at(0, 1) - at(0, 0), at(0, 0)

    def vectors(self):
        return (self.p, 0), (0, self.q)

    def translates(self, v):
        """Whether the translation by v is one of the operations."""
        return v[0] % self.p == 0 and v[1] % self.q == 0

    def home(self, cell):
        return min(self.images(cell), key=lambda image: image[0][::-1])[0]

    def images(self, cell):
        """The images of a cell in the repeat, each with whether an improper operation carries the cell there."""
        for g in self.positions:
            x, y = carry(g, cell)
            yield (x % self.p, y % self.q), determinant(g) < 0


class Oblique:
    span, hem = 1_000_000, 131_072
    positions = [IDENTITY]

    def __init__(self, ax, ay, bx, by):
        if max(map(abs, (ax, ay, bx, by))) > 256:
            raise Refused(14)
        self.a, self.b, self.area = (ax, ay), (bx, by), abs(ax * by - ay * bx)
        if self.area == 0:
            raise Refused(13)
        self.d = next(d for d in range(max(abs(ay), abs(by)), 0, -1) if ay % d == by % d == 0)
        self.p = self.area // self.d
        self.box = None

    def vectors(self):
        return self.a, self.b

    def parts(self, v):
        """The shares of the two vectors in v, times the area, modulo the area: equal for two cells of one class alone."""
        return (v[0] * self.b[1] - v[1] * self.b[0]) % self.area, (self.a[0] * v[1] - self.a[1] * v[0]) % self.area

    def translates(self, v):
        return self.parts(v) == (0, 0)

    def home(self, cell):
        if self.box is None:
            self.box = {self.parts((x, y)): (x, y) for y in range(self.d) for x in range(self.p)}
        return self.box[self.parts(cell)]

    def images(self, cell):
        yield self.home(cell), False

    def reduced(self):
        b = next(b for b in range(self.p) if self.translates((b, self.d)))
        return self.p, b, self.d


class Symmetry:
    """A base with layers, each a letter with its numbers."""

    def __init__(self, base, layers):
        kind, numbers = base
        self.base = Tabled(*numbers) if kind == "T" else Oblique(*numbers)
        self.layers = layers
        self.span, self.hem = self.base.span, self.base.hem
        self.up, self.odd_improper = IDENTITY, False
        for name, numbers in layers:
            self.add(name, numbers)
        self.down = inverse(self.up)
        self.period, self.operations = None, None
        self.known = {}

    def add(self, name, numbers):
        if name == "C":
            self.odd_improper = not self.odd_improper
            return
        if name == "S":
            u, v = numbers
            m = max(abs(u), abs(v))
            allowed, layer = m <= 1000, (1, 0, u, 0, 1, v)
            span, hem = self.span - m, self.hem + m
        else:
            a, b, c, d = numbers
            layer = (a, b, 0, c, d, 0)
            allowed = max(map(abs, numbers)) <= 8 and abs(determinant(layer)) == 1
            span, hem = self.span // 16, self.hem * 16
        if not allowed:
            raise Refused(15)
        if span < 1 or hem > 1_000_000_000:
            raise Refused(16)
        self.span, self.hem = span, hem
        self.up = compose(layer, self.up)

    def off_span(self, *cells):
        return any(abs(x) > self.span or abs(y) > self.span for x, y in cells)

    def home(self, cell):
        return carry(self.up, self.base.home(carry(self.down, cell)))

    def fold(self, cell):
        """Home and kinds of a cell."""
        if self.off_span(cell):
            raise Refused(2)
        below = carry(self.down, cell)
        home = self.base.home(below)
        kinds = {improper + 2 * (improper and self.odd_improper) for image, improper in self.base.images(below) if image == home}
        return carry(self.up, home), sorted(kinds)

    def unroll(self):
        """Finds the operations on the torus of the least period n of which all multiples are translations both ways."""
        n = next(n for n in count(1) if self.base.translates((n, 0)) and self.base.translates((0, n)))
        translations, new = {(0, 0)}, [(0, 0)]
        while new:
            x, y = new.pop()
            for u, v in self.base.vectors():
                moved = (x + u) % n, (y + v) % n
                if moved not in translations:
                    translations.add(moved)
                    new.append(moved)
        self.operations = set()
        for g in self.base.positions:
            odd = determinant(g) < 0 and self.odd_improper
            for x, y in translations:
                whole = compose(compose(self.up, compose((1, 0, x, 0, 1, y), g)), self.down)
                self.operations.add((tuple(entry % n for entry in whole), odd))
        self.period = n

    def torus(self, cell):
        if self.period is None:
            self.unroll()
        return cell[0] % self.period, cell[1] % self.period

    def images(self, at):
        """The images of a cell of the torus by even operations, and by odd ones."""
        if at not in self.known:
            n, sides = self.period, (set(), set())
            for g, odd in self.operations:
                x, y = carry(g, at)
                sides[odd].add((x % n, y % n))
            self.known[at] = sides
        return self.known[at]


class Sparse:
    def __init__(self, records):
        self.seats = min(records, 65_536)

    def admits(self, cell):
        return all(-(2**31) <= c < 2**31 for c in cell)


class Dense:
    def __init__(self, size, width, x, y):
        self.width = min(max(width, 1), 128)
        self.height = min(size // self.width, 128)
        self.seats = self.width * self.height
        self.x, self.y = x, y

    def admits(self, cell):
        return 0 <= cell[0] - self.x < self.width and 0 <= cell[1] - self.y < self.height


def line_cells(start, end):
    dx, dy = end[0] - start[0], end[1] - start[1]
    a, b = max(abs(dx), abs(dy)), min(abs(dx), abs(dy))
    if a + 1 > 4096:
        raise Refused(6)
    sx, sy = (1 if dx > 0 else -1), (1 if dy > 0 else -1)
    cells = []
    for i in range(a + 1):
        j = (2 * i * b + a) // (2 * a) if a else 0
        mx, my = (i, j) if abs(dx) == a else (j, i)
        cells.append((start[0] + sx * mx, start[1] + sy * my))
    return cells


class Sheet:
    def __init__(self, symmetry, canvas):
        self.symmetry, self.canvas = symmetry, canvas
        self.inks, self.held, self.strokes = {}, 0, 0
        self.closed = None

    def lay(self, cell, ink):
        """Writes an ink to all images of a cell."""
        at = self.symmetry.torus(cell)
        even, odd = self.symmetry.images(at)
        other = counterpart(ink)
        if ink != other and even & odd:
            raise Refused(3)
        if not self.canvas.admits(self.symmetry.home(cell)):
            raise Refused(4)
        before = self.inks.get(at, 0)
        if ink and not before and self.held == self.canvas.seats:
            raise Refused(5)
        self.held += bool(ink) - bool(before)
        self.inks.update(dict.fromkeys(odd, other))
        self.inks.update(dict.fromkeys(even, ink))

    def stroke(self, ink, ends):
        """How many cells were laid, and 0 or the refusal."""
        laid = 0
        try:
            if self.strokes == 65_535:
                raise Refused(7)
            if ink > 15:
                raise Refused(1)
            if self.symmetry.off_span(*ends):
                raise Refused(2)
            for cell in line_cells(ends[0], ends[-1]):
                self.lay(cell, ink)
                laid += 1
            number = 0
        except Refused as why:
            number = why.number
        self.strokes += laid > 0
        return laid, number

    def show(self, cell):
        if self.symmetry.off_span(cell):
            raise Refused(2)
        return self.inks.get(self.symmetry.torus(cell), 0)

    def window(self, x, y, w, h, palette, room):
        if not (1 <= w <= 128 and 1 <= h <= 128):
            raise Refused(8)
        if self.symmetry.off_span((x, y), (x + w - 1, y + h - 1)):
            raise Refused(2)
        if len(palette) != 48:
            raise Refused(10)
        dyes = [palette[i:i + 3] for i in range(0, 48, 3)]
        picture = b"P6\n%d %d\n255\n" % (w, h) + b"".join(dyes[self.show((i, j))] for j in range(y, y + h) for i in range(x, x + w))
        if len(picture) > room:
            raise Refused(9)
        return picture

    def classes(self):
        """How many classes are inked, by striking out their cells."""
        left = {cell for cell, ink in self.inks.items() if ink}
        for n in count():
            if not left:
                return n
            even, odd = self.symmetry.images(left.pop())
            left -= even | odd

    def close(self):
        assert self.held == self.classes()
        self.closed = (self.held, self.strokes)


class Trouble(Exception):
    """Why a line is no command."""


class Fields:
    """The fields of a line, read one after the other."""

    def __init__(self, text):
        self.fields, self.read = text.split(" "), 0

    def next(self):
        if self.read == len(self.fields):
            return None
        self.read += 1
        return self.fields[self.read - 1]

    def missing(self, wanted):
        return Trouble(f"field {self.read + 1}: missing; it has to be {wanted}")

    def other(self, wanted):
        return Trouble(f"field {self.read}: not {wanted}")

    def word(self, wanted):
        field = self.next()
        if field is None:
            raise self.missing(wanted)
        return field

    def whole(self, wanted, least, most):
        return self.within(self.word(wanted), wanted, least, most)

    def within(self, text, wanted, least, most):
        if not NUMBER.fullmatch(text) or not least <= int(text) <= most:
            raise self.other(wanted)
        return int(text)

    def numbers(self, n):
        return [self.whole("a whole number of 64 bits", -(2**63), 2**63 - 1) for _ in range(n)]

    def symmetry(self, colon):
        """A base and its layers, and the colon after them or the end of the line."""
        wanted = "T or O, which begins a base"
        kind = self.word(wanted)
        if kind not in ("T", "O"):
            raise self.other(wanted)
        base = kind, self.numbers(3 if kind == "T" else 4)
        layers = []
        while (name := self.next()) is not None:
            if colon and name == ":":
                return base, layers
            if name not in ("S", "R", "C"):
                raise self.other("S, R or C, which begins a layer")
            layers.append((name, self.numbers({"S": 2, "R": 4, "C": 0}[name])))
        if colon:
            raise self.missing("a colon")
        return base, layers

    def canvas(self):
        wanted = "sparse or bytes"
        kind = self.word(wanted)
        if kind not in ("sparse", "bytes"):
            raise self.other(wanted)
        size = self.whole("a number from 0 to 1,000,000", 0, 1_000_000)
        if kind == "sparse":
            return Sparse(size)
        width, = self.numbers(1)
        corner = [self.whole("a whole number of 32 bits", -(2**31), 2**31 - 1) for _ in range(2)]
        return Dense(size, width, *corner)

    def palette(self):
        wanted = "96 hexadecimal digits"
        digits = self.word(wanted)
        if not HEX.fullmatch(digits):
            raise self.other(wanted)
        return bytes.fromhex(digits)

    def stroke(self, ends):
        return self.whole("an ink, from 0 to 255", 0, 255), self.cells(ends)

    def cells(self, n):
        numbers = self.numbers(2 * n)
        return list(zip(numbers[::2], numbers[1::2]))

    def length(self, field, name, wanted):
        if not field.startswith(name):
            raise self.other(wanted)
        return self.within(field[len(name):], wanted, 0, 1_000_000)

    def window(self):
        """The rectangle, and a file or the two lengths."""
        rectangle = self.numbers(4)
        wanted = "a file or palette=LENGTH"
        target = self.word(wanted)
        if not target:
            raise self.other(wanted)
        if not target.startswith("palette="):
            return rectangle, target
        palette = self.length(target, "palette=", wanted)
        wanted = "output=LENGTH"
        return rectangle, (palette, self.length(self.word(wanted), "output=", wanted))

    def end(self):
        if self.next() is not None:
            raise Trouble(f"field {self.read}: surplus")


READERS = {
    "make": lambda f: f.symmetry(False),
    "fold": lambda f: (f.symmetry(True), f.cells(1)[0]),
    "reduce": lambda f: f.numbers(4),
    "cells": lambda f: f.cells(2),
    "symmetry": lambda f: f.symmetry(False),
    "canvas": Fields.canvas,
    "palette": Fields.palette,
    "open": lambda f: None,
    "dot": lambda f: f.stroke(1),
    "line": lambda f: f.stroke(2),
    "show": lambda f: f.cells(1)[0],
    "window": Fields.window,
    "close": lambda f: None,
    "quote": lambda f: None,
}


QUESTIONS = ("make", "fold", "reduce", "cells")
CALLS = ("dot", "line", "show", "window", "close", "quote")


class Console:
    """Runs one job; the windows that it writes are in `files`."""

    def __init__(self):
        self.symmetry, self.description, self.canvas, self.palette, self.sheet = None, None, None, None, None
        self.output, self.files = [], {}
        self.answers, self.refusals, self.puzzles = 0, 0, 0

    def run(self, job):
        """What is printed for a job, in bytes."""
        lines = job.split(b"\n")
        if not lines[-1]:
            lines.pop()
        for number, line in enumerate(lines, 1):
            if line and not line.startswith(b"#"):
                self.read(number, line)
        commands = self.answers + self.refusals
        self.say(f"{commands} commands: {self.answers} answers, {self.refusals} refusals; {self.puzzles} lines not understood")
        return "".join(self.output).encode()

    def say(self, text):
        self.output.append(text + "\n")

    def puzzle(self, number, why):
        self.puzzles += 1
        self.say(f"line {number}: {why}")

    def read(self, number, line):
        try:
            text = line.decode()
        except UnicodeDecodeError:
            return self.puzzle(number, "not text in UTF-8")
        fields = Fields(text)
        try:
            name = fields.next()
            if name not in READERS:
                raise Trouble("field 1: no command has this name; 'help' lists them")
            given = READERS[name](fields)
            fields.end()
        except Trouble as why:
            return self.puzzle(number, why)
        self.command(number, text, name, given)

    def command(self, number, text, name, given):
        why = self.out_of_turn(name)
        if why:
            self.refusals += 1
            self.say(f"{text} = out of turn: {why}")
            return
        refusal = None
        if name == "symmetry":
            self.description = text.partition(" ")[2]
        try:
            answer = getattr(self, f"answer_{name}")(given)
            if name in ("dot", "line"):
                laid, refusal = answer
                answer = f"{laid} {refusal}"
        except Refused as refused:
            refusal, answer = refused.number, f"refused {refused.number}"
        except NotWritten as why:
            refusal, answer = "not written", f"not written {why}"
        self.refusals += bool(refusal)
        self.answers += not refusal
        self.say(text if answer is None else f"{text} = {answer}")
        if refusal in WORDS and name not in QUESTIONS:
            self.say(f"  line {number}: {WORDS[refusal]}")
        if name == "quote":
            self.card()

    def out_of_turn(self, name):
        if name == "open" and not (self.symmetry and self.canvas):
            return "a symmetry and a canvas come first"
        if name in CALLS and not self.sheet:
            return "no sheet is open"
        if name in ("dot", "line", "close") and self.sheet.closed:
            return "the sheet is closed, open another"
        if name == "quote" and not self.sheet.closed:
            return "close the sheet first"
        return None

    def answer_make(self, given):
        made = Symmetry(*given)
        return f"ok {made.span} {made.hem}"

    def answer_fold(self, given):
        (x, y), kinds = Symmetry(*given[0]).fold(given[1])
        return f"ok {x} {y} {''.join(map(str, kinds))}"

    def answer_reduce(self, given):
        return "ok {} {} {}".format(*Oblique(*given).reduced())

    def answer_cells(self, ends):
        cells = line_cells(*ends)
        return " ".join([str(len(cells))] + [f"{x},{y}" for x, y in cells])

    def answer_symmetry(self, given):
        self.sheet = self.symmetry = None
        self.symmetry = Symmetry(*given)

    def answer_canvas(self, given):
        self.sheet, self.canvas = None, given

    def answer_palette(self, given):
        self.sheet, self.palette = None, given

    def answer_open(self, _):
        self.sheet = Sheet(self.symmetry, self.canvas)

    def answer_dot(self, given):
        return self.sheet.stroke(*given)

    answer_line = answer_dot

    def answer_show(self, cell):
        return self.sheet.show(cell)

    def answer_window(self, given):
        rectangle, target = given
        if isinstance(target, str):
            picture = self.sheet.window(*rectangle, self.palette, 1_000_000)
            if "/" in target or "\0" in target:
                raise NotWritten(target)
            self.files[target] = picture
            return f"ok {len(picture)} {target}"
        length, room = target
        picture = self.sheet.window(*rectangle, self.palette[:length], room)
        return f"ok {len(picture)} {picture.hex()}"

    def answer_close(self, _):
        self.sheet.close()

    def answer_quote(self, _):
        return "{} {}".format(*self.sheet.closed)

    def card(self):
        symmetry = self.sheet.symmetry
        if isinstance(symmetry.base, Tabled) and not symmetry.layers:
            self.say(f"  symbol      {symmetry.base.symbol}")
            self.say(f"  periods     {symmetry.base.p} by {symmetry.base.q}")
        else:
            self.say(f"  symmetry    {self.description}")
        held, strokes = self.sheet.closed
        self.say(f"  cells       {held}")
        self.say(f"  strokes     {strokes}")


# Which command asks each file of outside answers, and how a line's fields are asked.
ASKED = {
    "make.txt": "make {}",
    "fold.txt": "fold T {} : {}",
    "layer.txt": "fold {}",
    "oblique.txt": "fold O {} : {}",
    "oblique_reduced.txt": "reduce {}",
    "line.txt": "cells {}",
}


def answered(lines):
    """What the model prints for these commands, without words of refusals, cards and the closing line."""
    printed = Console().run("".join(f"{line}\n" for line in lines).encode()).decode().splitlines()
    return [line for line in printed[:-1] if not line.startswith(("  ", "palette "))]


def agree(name, got, wanted):
    for a, b in zip_longest(got, wanted):
        if a != b:
            print(f"{name}: got '{a}', expected '{b}'")
    return sum(a == b for a, b in zip(got, wanted)), max(len(got), len(wanted))


def command_of(form, given):
    """The command for the input of an outside answer: in the forms with a colon of their own, the cell follows it."""
    if form.count("{}") == 1:
        return form.format(given)
    fields = given.split()
    return form.format(" ".join(fields[:-2]), " ".join(fields[-2:]))


def main_self():
    counts = {}
    for name, form in ASKED.items():
        pairs = [line.split(" = ") for line in (VECTORS / name).read_text().splitlines()]
        wanted = [f"{command_of(form, given)} = {answer}" for given, answer in pairs]
        counts[name] = agree(name, answered([line.split(" = ")[0] for line in wanted]), wanted)
    palette = (VECTORS / "histories" / "PALETTE.hex").read_text().strip()
    histories = []
    for path in sorted((VECTORS / "histories").glob("*.txt")):
        wanted = path.read_text().splitlines()
        calls = [f"palette {palette}"] + [line.split(" = ")[0] for line in wanted]
        histories.append(agree(path.name, answered(calls), wanted))
    counts["histories"] = tuple(map(sum, zip(*histories)))
    for name, (agreed, lines) in counts.items():
        print(f"{name}: {agreed} of {lines} agreed")
    return all(agreed == lines for agreed, lines in counts.values())


if __name__ == "__main__":
    if sys.argv[1:] == ["--self"]:
        sys.exit(not main_self())
    sys.stdout.buffer.write(Console().run(sys.stdin.buffer.read()))
