"""Makes random circuits, for tools/differ, and writes them as AIGER of both spellings."""


def delta(number):
    groups = bytearray()
    while number >= 128:
        groups.append(number % 128 + 128)
        number //= 128
    groups.append(number)
    return bytes(groups)


class Made:
    """A random circuit: numbers of ports and latches, and its literals over consecutive variables."""

    def __init__(self, draw):
        self.inputs, ands = draw.randint(0, 6), draw.randint(0, draw.choice((3, 12, 40)))
        self.first = [draw.randint(0, 1) for _ in range(draw.choice((0, 0, 1, 2, 3, 6)))]
        before = self.inputs + len(self.first)
        self.ands = []
        for k in range(ands):
            # Most rows read what stands shortly before them, so that deep circuits come; some read the constant.
            low = max(0, before + k - 12) if draw.random() < 0.7 else 0
            pair = [2 * draw.randint(low, before + k) + draw.randint(0, 1) for _ in range(2)]
            self.ands.append(sorted(pair, reverse=True))
        most = 2 * (before + ands) + 1
        pick = lambda: draw.randint(max(0, most - 12), most) if draw.random() < 0.6 else draw.randint(0, most)
        self.nexts = [pick() for _ in self.first]
        self.outputs = [pick() for _ in range(draw.randint(1, 5))]
        self.named = draw.random() < 0.3

    def binary(self):
        before = self.inputs + len(self.first)
        text = f"aig {before + len(self.ands)} {self.inputs} {len(self.first)} {len(self.outputs)} {len(self.ands)}\n"
        text += "".join(f"{fed}{' 1' if bit else ''}\n" for fed, bit in zip(self.nexts, self.first))
        text += "".join(f"{literal}\n" for literal in self.outputs)
        deltas = b"".join(delta(2 * (before + k + 1) - one) + delta(one - two) for k, (one, two) in enumerate(self.ands))
        return text.encode() + deltas

    def ascii(self, draw):
        """The same circuit with other variables and its conjunctions in another order."""
        used = self.inputs + len(self.first) + len(self.ands)
        most = used + draw.choice((0, 0, 5))
        variable = [0] + draw.sample(range(1, most + 1), used)
        renamed = lambda literal: 2 * variable[literal // 2] + literal % 2
        lines = [f"aag {most} {self.inputs} {len(self.first)} {len(self.outputs)} {len(self.ands)}"]
        lines += [f"{renamed(2 * k + 2)}" for k in range(self.inputs)]
        for k, (fed, bit) in enumerate(zip(self.nexts, self.first)):
            lines.append(f"{renamed(2 * (self.inputs + k) + 2)} {renamed(fed)} {bit}")
        lines += [f"{renamed(literal)}" for literal in self.outputs]
        before = used - len(self.ands)
        rows = [f"{renamed(2 * (before + k + 1))} {renamed(two)} {renamed(one)}" for k, (one, two) in enumerate(self.ands)]
        draw.shuffle(rows)
        return ("\n".join(lines + rows) + "\n").encode()

    def symbols(self):
        names = [f"i{k} in[{k}]\n" for k in range(self.inputs)] + [f"o{k} out {k}\n" for k in range(0, len(self.outputs), 2)]
        return "".join(names).encode() if self.named else b""


def random_vectors(draw, width, count):
    return [[draw.randint(0, 1) for _ in range(width)] for _ in range(count)]
