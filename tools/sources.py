"""Reads AIGER and BLIF and evaluates them, for the scripts beside it. It shares nothing with crates/ and is proved nowhere.

A circuit is evaluated by its equations, one step a cycle. A text of another form is a ValueError."""


class Circuit:
    """Inputs, latches (net, first bit, next net) and equations by net in an order in which each can be evaluated.

    An equation is (net, on, rows), and a row a list of (net, bit): the net is `on` where a row has all its bits.
    Outputs and nexts are pairs (net, flipped)."""

    def __init__(self, inputs, latches, equations, outputs, input_names, output_names):
        self.inputs, self.latches, self.outputs = inputs, latches, outputs
        self.input_names, self.output_names = input_names, output_names
        self.state = [first for _, first, _ in latches]
        known = {0, *inputs, *(net for net, _, _ in latches)}
        by_net = {net: (net, on, rows) for net, on, rows in equations}
        self.equations = []
        for start in by_net:
            self.order(start, known, by_net)

    def order(self, start, known, by_net):
        """Appends what `start` stands on, and then itself. A stack of its own, since chains may be long."""
        stack = [start]
        while stack:
            net = stack[-1]
            if net in known:
                stack.pop()
                continue
            missing = [read for row in by_net[net][2] for read, _ in row if read not in known]
            if missing:
                if len(stack) > 2 * len(by_net) + 2:
                    raise ValueError("a combinational cycle")
                stack.append(missing[0])
            else:
                known.add(net)
                self.equations.append(by_net[net])

    def step(self, vector):
        """The outputs for this vector, and then the next state."""
        value = {0: 0}
        value.update(zip(self.inputs, vector))
        value.update((net, bit) for (net, _, _), bit in zip(self.latches, self.state))
        for net, on, rows in self.equations:
            value[net] = on if any(all(value[read] == bit for read, bit in row) for row in rows) else 1 - on
        self.state = [value[net] ^ flipped for _, _, (net, flipped) in self.latches]
        return [value[net] ^ flipped for net, flipped in self.outputs]


def literal(number):
    return number // 2, number % 2


def conjunction(net, one, two):
    """A row of AIGER: the net is 1 where both literals are."""
    return net, 1, [[(read, 1 - flipped) for read, flipped in (literal(one), literal(two))]]


def read_aiger(data):
    """AIGER of both spellings, as far as circuits go: no property, no latch without a first bit."""
    head, _, rest = data.partition(b"\n")
    words = head.split()
    _, inputs, latches, outputs, ands = map(int, words[1:6])
    binary = words[0] == b"aig"
    lines = rest.split(b"\n", latches + outputs if binary else inputs + latches + outputs + ands)
    take = iter(lines)
    input_nets = [k + 1 if binary else int(next(take)) // 2 for k in range(inputs)]
    kept = []
    for k in range(latches):
        fields = [int(word) for word in next(take).split()]
        net = inputs + k + 1 if binary else fields.pop(0) // 2
        first = fields[1] if len(fields) > 1 else 0
        if first not in (0, 1):
            raise ValueError(f"latch {k} has no first bit")
        kept.append((net, first, literal(fields[0])))
    output_lits = [literal(int(next(take))) for _ in range(outputs)]
    if binary:
        equations, tail = read_deltas(lines[-1], inputs + latches, ands)
    else:
        rows = [[int(word) for word in next(take).split()] for _ in range(ands)]
        equations, tail = [conjunction(net // 2, one, two) for net, one, two in rows], lines[-1]
    names = read_symbols(tail)
    return Circuit(input_nets, kept, equations, output_lits,
                   [names.get(("i", k)) for k in range(inputs)], [names.get(("o", k)) for k in range(outputs)])


def without_symbols(data):
    """A binary AIGER file up to its symbols: ABC copies them into BLIF, also where a name has a blank."""
    _, inputs, latches, outputs, ands = map(int, data.split(b"\n", 1)[0].split()[1:6])
    lines = data.split(b"\n", 1 + latches + outputs)
    _, tail = read_deltas(lines[-1], inputs + latches, ands)
    return data[:len(data) - len(tail)]


def read_deltas(data, before, ands):
    place, equations = 0, []

    def delta():
        nonlocal place
        number, shift = 0, 0
        while True:
            byte = data[place]
            place += 1
            number |= (byte & 127) << shift
            shift += 7
            if byte < 128:
                return number

    for k in range(ands):
        net = before + k + 1
        one = 2 * net - delta()
        equations.append(conjunction(net, one, one - delta()))
    return equations, data[place:]


def read_symbols(tail):
    names = {}
    for line in tail.decode("latin-1").split("\n"):
        if line.startswith("c"):
            break
        if line:
            place, _, name = line.partition(" ")
            names[(place[0], int(place[1:]))] = name
    return names


def logical_lines(text):
    """The words of BLIF's lines: comments are dropped first, then a last backslash continues the line."""
    words, goes_on = [], False
    for line in text.split("\n"):
        line = line.split("#", 1)[0].rstrip(" \t\r")
        goes_on = line.endswith("\\")
        words += (line[:-1] if goes_on else line).split()
        if not goes_on:
            if words:
                yield words
            words = []
    if words:
        yield words


IGNORED = {".area", ".delay", ".wire_load_slope", ".wire", ".input_arrival", ".default_input_arrival", ".output_required",
           ".default_output_required", ".input_drive", ".default_input_drive", ".output_load", ".default_output_load",
           ".max_input_load", ".default_max_input_load"}


def read_blif(text):
    """BLIF of one model, one clock and latches with a first bit; the form that `compile` takes."""
    reader = BlifForm()
    for words in logical_lines(text):
        reader.take(words)
    return reader.circuit()


class BlifForm:
    """What the lines of a BLIF text say so far."""

    def __init__(self):
        self.nets, self.inputs, self.outputs, self.latches, self.equations = {}, [], [], [], []
        self.clocks, self.types = set(), set()
        self.row, self.began, self.ended = None, False, False

    def net(self, name):
        return self.nets.setdefault(name, len(self.nets) + 1)

    def take(self, words):
        first, rest = words[0], words[1:]
        if self.ended or self.began == (first == ".model"):
            raise ValueError(f"not in its place: {first}")
        if not first.startswith("."):
            self.take_row(words)
            return
        self.row = None
        if first == ".model":
            self.began = True
        elif first in (".inputs", ".outputs"):
            (self.inputs if first == ".inputs" else self.outputs).extend(rest)
            for name in rest:
                self.net(name)
        elif first == ".clock":
            self.clocks.update(rest)
        elif first == ".names":
            for name in rest:
                self.net(name)
            self.row = (rest[:-1], rest[-1], [])
            self.equations.append(self.row)
        elif first == ".latch":
            self.take_latch(rest)
        elif first == ".end":
            self.ended = True
        elif first not in IGNORED:
            raise ValueError(f"unsupported: {first}")

    def take_latch(self, words):
        if len(words) in (4, 5):
            if words[2] not in ("re", "fe"):
                raise ValueError(f"latch type {words[2]}")
            self.types.add((words[2], words[3]))
            if words[3] != "NIL":
                self.clocks.add(words[3])
        elif len(words) not in (2, 3):
            raise ValueError("a latch of another form")
        if len(words) % 2 == 0 or words[-1] not in ("0", "1"):
            raise ValueError(f"no fixed initial value: {words[1]}")
        if len(self.types) > 1 or len(self.clocks) > 1:
            raise ValueError("mixed clock")
        self.latches.append((self.net(words[0]), self.net(words[1]), int(words[-1])))

    def take_row(self, words):
        if self.row is None:
            raise ValueError("stray row")
        names, _, rows = self.row
        bits = words[0] if names else ""
        if len(words) != (2 if names else 1) or len(bits) != len(names) or set(bits) - set("01-") or words[-1] not in "01":
            raise ValueError(f"bad row: {' '.join(words)}")
        if rows and rows[0][1] != words[-1]:
            raise ValueError("mixed cover")
        rows.append(([(self.nets[name], int(bit)) for name, bit in zip(names, bits) if bit != "-"], words[-1]))

    def circuit(self):
        equations = [(self.nets[net], int(rows[0][1]) if rows else 1, [row for row, _ in rows]) for _, net, rows in self.equations]
        driven = [self.nets[name] for name in self.inputs] + [net for _, net, _ in self.latches] + [net for net, _, _ in equations]
        used = {self.nets[name] for name in self.outputs} | {net for net, _, _ in self.latches}
        used |= {net for _, _, rows in equations for row in rows for net, _ in row}
        for clock in self.clocks:
            net = self.nets.get(clock)
            if net in used:
                raise ValueError(f"clock read as data: {clock}")
            if net is not None and clock not in self.inputs:
                raise ValueError(f"derived clock: {clock}")
        if len(driven) != len(set(driven)) or used - set(driven):
            raise ValueError("a net is undriven or driven twice")
        latches = [(out, first, (fed, 0)) for fed, out, first in self.latches]
        return Circuit([self.nets[name] for name in self.inputs], latches, equations,
                       [(self.nets[name], 0) for name in self.outputs], self.inputs, self.outputs)
