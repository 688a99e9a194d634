"""Random drawing jobs, with valid and with damaged lines."""
from math import lcm

FAR = [0, 2**31 - 1, 2**31, -(2**31), -(2**31) - 1, 999_999, 1_000_000, 1_000_001, -1_000_000, -1_000_001, 2**63 - 1, -(2**63)]
NO_NUMBERS = [str(2**63), str(-(2**63) - 1), "9" * 40, "-" + "9" * 40, "+1", "-", "--1", "", "1.5", "0x1", "1e3", "1,000", "٣", "one", "NaN"]
OTHER_NUMBERS = ["-0", "007", "-01", "0" * 40 + "1"]
WORDS = ["nope", "T", "O", "S", "R", "C", ":", "=", "sparse", "bytes", "dots", "Dot", "OPEN", "help!", "é", "palette=", "palette=48", "output=9", "16", "-1", "0"]
RECASTS = [(0, 1, 1, 0), (1, 1, 0, 1), (0, -1, 1, 0), (-1, 0, 0, 1), (2, 1, 1, 1), (3, 2, 4, 3), (1, 0, -1, 1), (1, -8, 0, 1), (8, 7, 1, 1)]
WRONG_RECASTS = [(1, 1, 1, 1), (2, 0, 0, 1), (9, 8, 1, 1), (1, 9, 0, 1), (0, 0, 0, 0), (2**63 - 1, 2**62, 2, 1)]
SHIFTED_X, SHIFTED_Y = (5, 7, 8, 9, 12), (4, 5, 8, 9, 12)


class Writer:
    """Writes jobs by a random generator; a job is a list of lines in bytes."""

    def __init__(self, random, files=True):
        self.random, self.files = random, files
        self.span, self.middle = 1_000_000, (0, 0)

    def chance(self, share):
        return self.random.random() < share

    def pick(self, *choices):
        return self.random.choice(choices)

    def near(self, reach):
        return self.random.randint(-reach, reach)

    def periods(self, number):
        """Periods that the rules of a group allow, now and then large ones, with a small common multiple."""
        if self.chance(0.05):
            return [self.pick(30, 64, 96, 128)] * 2
        while True:
            p, q = self.random.randint(1, 12), self.random.randint(1, 12)
            if number >= 10:
                q = p
            if lcm(p, q) <= 24 and not (number in SHIFTED_X and p % 2) and not (number in SHIFTED_Y and q % 2):
                return p, q

    def base(self):
        if self.chance(0.3):
            reach = 6 if self.chance(0.97) else 20
            return ["O", *(self.near(reach) for _ in range(4))]
        number = self.random.randint(1, 17)
        return ["T", number, *self.periods(number)]

    def wrong_base(self):
        return self.pick(
            ["T", self.pick(0, 18, -1, 2**63 - 1), 4, 4],
            ["T", self.random.randint(1, 17), self.pick(0, -1, 129, 2**62), 4],
            ["T", self.random.randint(10, 17), 4, 6],
            ["T", self.pick(4, 5, 8, 9, 12), 5, 5],
            ["O", 2, 4, -1, -2],
            ["O", 0, 0, 3, 1],
            ["O", self.pick(257, -257, 2**63 - 1, -(2**63)), 0, 0, 1],
        )

    def layer(self):
        name = self.pick("S", "S", "R", "C", "C")
        if name == "C":
            return ["C"]
        if name == "R":
            return ["R", *self.random.choice(RECASTS)]
        u, v = self.near(20), self.near(20)
        self.middle = self.middle[0] + u, self.middle[1] + v
        return ["S", u, v]

    def wrong_layer(self):
        return self.pick(["R", *self.random.choice(WRONG_RECASTS)], ["S", self.pick(1001, -1001, 2**63 - 1, -(2**63)), 0])

    def symmetry(self, wrong=0.06):
        self.middle = (0, 0)
        parts = self.wrong_base() if self.chance(wrong / 2) else self.base()
        layers = [self.layer() for _ in range(self.pick(0, 0, 0, 1, 1, 2, 3))]
        if self.chance(wrong / 2):
            layers.append(self.wrong_layer())
        if self.chance(wrong / 4):
            layers += [["R", 1, 1, 0, 1]] * 6
        self.span = 1_000_000 // 16 ** sum(layer[0] == "R" for layer in layers)
        for layer in layers:
            if layer[0] == "S":
                self.span -= max(abs(layer[1]), abs(layer[2]))
        return parts + [field for layer in layers for field in layer]

    def canvas(self):
        if self.chance(0.5):
            return ["sparse", self.pick(0, 1, 2, 3, 5, 8, 13, 20, 50, 200, 65_536, 65_537, 1_000_000)]
        x, y = self.pick((0, 0), self.middle, (self.near(4), self.near(4)), (self.random.choice(FAR[:5]), 0))
        width = self.pick(1, 2, 3, 5, 8, 12, 16, 40, 128, 129, 0, -1, 2**63 - 1, -(2**63))
        return ["bytes", self.pick(0, 1, 4, 9, 16, 40, 100, 130, 640, 2051, 16_384, 20_000, 1_000_000), width, x, y]

    def coordinate(self):
        if self.chance(0.03):
            return self.random.choice(FAR)
        if self.chance(0.03):
            return self.pick(1, -1) * (self.span + self.pick(-1, 0, 0, 1))
        return self.near(16)

    def ink(self):
        return self.pick(0, 0, 1, 1, 2, 2, 15, 15, self.random.randint(0, 15), self.random.randint(0, 15), self.random.randint(0, 15), self.pick(16, 17, 255, 7))

    def ends(self):
        if self.chance(0.01):
            x, y = self.near(50), self.near(50)
            return x, y, x + self.pick(1, -1) * self.pick(4094, 4095, 4096, 4097), y + self.near(4096)
        return [self.coordinate() for _ in range(4)]

    def window(self):
        x, y = self.coordinate(), self.coordinate()
        w, h = self.random.randint(1, 9), self.random.randint(1, 9)
        if self.chance(0.1):
            w = self.pick(0, -1, 128, 129, 2**63 - 1, -(2**63))
        if self.files and self.chance(0.2):
            name = f"w{self.random.randint(0, 5)}.ppm"
            return [x, y, w, self.pick(h, h, 128), name if self.chance(0.9) else f"absent/{name}"]
        size = len(f"P6\n{w} {h}\n255\n") + 3 * w * h
        room = self.pick(49_167, max(size, 0), max(size - 1, 0), size + 1, 0, 1_000_000)
        return [x, y, w, h, f"palette={self.pick(48, 48, 48, 48, 47, 49, 0, 1_000_000)}", f"output={min(room, 1_000_000) if room > 0 else 0}"]

    def question(self):
        name = self.pick("make", "fold", "reduce", "cells")
        if name == "reduce":
            reach = self.pick(3, 10, 100, 256, 257)
            return [name, *(self.near(reach) for _ in range(4))]
        if name == "cells":
            return [name, *self.ends()]
        if name == "make":
            return [name, *self.symmetry(0.5)]
        return [name, *self.symmetry(0.2), ":", self.coordinate(), self.coordinate()]

    def call(self):
        name = self.random.choices(["dot", "line", "show", "window"], [35, 25, 30, 10])[0]
        if name == "dot":
            return [name, self.ink(), self.coordinate(), self.coordinate()]
        if name == "line":
            return [name, self.ink(), *self.ends()]
        if name == "show":
            return [name, self.coordinate(), self.coordinate()]
        return [name, *self.window()]

    def palette(self):
        digits = "".join(f"{self.random.randint(0, 255):02x}" for _ in range(48))
        return ["palette", self.pick(digits, digits.upper())]

    def no_palette(self):
        digits = self.palette()[1]
        return ["palette", self.pick(digits[1:], digits + "0", "g" + digits[1:], "+" + digits[1:], "", "0x" + digits[2:])]

    def damage(self, fields):
        """One thing is wrong with the line, as a rule."""
        at = self.random.randrange(len(fields))
        what = self.random.randrange(12)
        if what <= 1:
            del fields[at]
        elif what == 2:
            fields.insert(at, fields[at])
        elif what == 3:
            fields.append(self.random.choice(WORDS))
        elif what == 4:
            fields.insert(at, "")
        elif what == 5:
            fields.append("")
        elif what == 6:
            fields[at] = self.random.choice(WORDS)
        elif what <= 9:
            fields[at] = self.random.choice(NO_NUMBERS)
        elif what == 10:
            fields[at] = self.random.choice(OTHER_NUMBERS)
        else:
            fields[at] = str(fields[at]) + self.pick("\t", "\r", "\0", "x", "\u00a0")
        return fields

    def line(self, fields):
        """A line of bytes, now and then damaged, more rarely if the sheet depends on it."""
        if self.chance(0.02 if fields[0] in ("symmetry", "canvas", "open") else 0.08):
            fields = self.damage(list(fields))
        line = " ".join(map(str, fields)).encode()
        if self.chance(0.005):
            at = self.random.randint(0, len(line))
            line = line[:at] + self.pick(b"\xff", b"\xc3", b"\xed\xa0\x80", b"\xc0\x80") + line[at:]
        return line

    def section(self):
        """Commands from a symmetry to a quote, with some left out or repeated."""
        if self.chance(0.95):
            yield ["symmetry", *self.symmetry()]
        if self.chance(0.95):
            yield ["canvas", *self.canvas()]
        if self.chance(0.2):
            yield self.palette() if self.chance(0.7) else self.no_palette()
        for _ in range(self.pick(0, *[1] * 15, 2)):
            yield ["open"]
            yield from self.calls(self.pick(3, 10, 30, 60))
            yield from [["close"]] * self.pick(0, 1, 1, 1, 1, 1, 1, 2)
            yield from [["quote"]] * self.pick(0, 1, 1, 2)
            yield from self.calls(self.pick(0, 2, 8))
            yield from [["quote"]] * self.pick(0, 1)

    def calls(self, n):
        for _ in range(n):
            if self.chance(0.05):
                yield self.question()
            yield self.pick(["close"], ["quote"], ["open"]) if self.chance(0.01) else self.call()

    def job(self, calls):
        """A job of so many lines that are not passed over, after its palette."""
        lines = [" ".join(self.palette()).encode()]
        written = 1
        while written < calls:
            for fields in self.section():
                if self.chance(0.02):
                    lines.append(self.pick(b"", b"# a remark", b"#dot 1 0 0"))
                line = self.line(fields)
                lines.append(line)
                written += bool(line) and not line.startswith(b"#")
                if written == calls:
                    break
        return lines
