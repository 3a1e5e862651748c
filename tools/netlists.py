"""Reads netlists' texts and runs them, for the scripts beside it. It shares nothing with crates/ and is proved nowhere.

A netlist is run as pulses that arrive in random order, by the tables of its cells. A text of another form is a ValueError."""

LA, FA, SPLIT, DROC = "la", "fa", "split", "droc"


class Netlist:
    """The lines of a netlist's text: rails are (port, sign, wire), cells (kind, fields ..)."""

    def __init__(self, text):
        self.input_rails, self.cells, self.output_rails = [], [], []
        self.input_names, self.output_names = {}, {}
        self.states = []  # (latch, cell), in version 2
        lines = text.split("\n")
        if len(lines) < 4 or lines[0] not in ("xsfq 1", "xsfq 2") or lines[-2:] != ["end", ""]:
            raise ValueError("this is no netlist")
        self.version = int(lines[0].split(" ")[1])
        for number, line in enumerate(lines[1:-2], 2):
            try:
                self.take(line.split(" "), line)
            except (ValueError, IndexError, TypeError):
                raise ValueError(f"line {number} of the netlist: {line}") from None
        rails = self.input_rails + self.output_rails
        self.wires = 1 + max([rail[2] for rail in rails] + [w for cell in self.cells for w in wires_of(cell)], default=-1)

    def take(self, words, line):
        kind, fields = words[0], words[1:]
        if kind == "ports":
            self.inputs, self.outputs = map(int, fields)
        elif kind in ("input", "output"):
            port, sign, wire = fields
            if sign not in ("p", "n"):
                raise ValueError
            (self.input_rails if kind == "input" else self.output_rails).append((int(port), sign, int(wire)))
        elif kind in (LA, FA, SPLIT):
            one, two, three = map(int, fields)
            self.cells.append((kind, one, two, three))
        elif kind == DROC:
            role, preload, feed, q, n = fields
            outputs = [None if wire == "-" else int(wire) for wire in (q, n)]
            self.cells.append((kind, role, int(preload), int(feed), *outputs))
        elif kind == "state" and self.version == 2:
            latch, cell = map(int, fields)
            self.states.append((latch, cell))
        elif kind in ("iname", "oname"):
            names = self.input_names if kind == "iname" else self.output_names
            names[int(fields[0])] = line.split(" ", 2)[2]
        else:
            raise ValueError

    def input_name(self, port):
        return self.input_names.get(port, f"input {port}")

    def output_name(self, port):
        return self.output_names.get(port, f"output {port}")


def reads(cell):
    """The wires that a cell reads, port by port."""
    return {LA: cell[1:3], FA: cell[1:3], SPLIT: cell[1:2], DROC: cell[3:4]}[cell[0]]


def drives(cell):
    """The wires that a cell drives; an output that isn't used is None."""
    return {LA: cell[3:4], FA: cell[3:4], SPLIT: cell[2:4], DROC: cell[4:6]}[cell[0]]


def wires_of(cell):
    return [wire for wire in (*reads(cell), *drives(cell)) if wire is not None]


class Pulses:
    """A netlist that is run. `cycle` opens both phases for one vector and delivers each pulse in random order.

    Faults are told in words: an upset, a rail that pulses twice in a cycle or not at all, a wire without a reader.
    The wire from the front of a latch to its back is no rail: it carries none, one or two pulses a cycle."""

    def __init__(self, netlist, draw):
        self.netlist, self.draw = netlist, draw
        self.delivered = 0
        self.reader = [None] * netlist.wires
        for place, cell in enumerate(netlist.cells):
            for port, wire in enumerate(reads(cell)):
                self.connect(wire, (cell[0], place, port, drives(cell)))
        for place, rail in enumerate(netlist.output_rails):
            self.connect(rail[2], ("rail", place, 0, ()))
        fronts = {cell[4] for cell in netlist.cells if cell[0] == DROC and cell[1] == "f"}
        self.is_rail = [wire not in fronts for wire in range(netlist.wires)]
        # The port whose pulse an LA or FA waits behind; None at rest. The bit of a DROC.
        self.held = [None] * len(netlist.cells)
        self.bit = [cell[2] if cell[0] == DROC else 0 for cell in netlist.cells]
        self.drocs = [(place, cell[4], cell[5]) for place, cell in enumerate(netlist.cells) if cell[0] == DROC]

    def connect(self, wire, reader):
        if self.reader[wire] is not None:
            raise ValueError(f"wire {wire} is read twice")
        self.reader[wire] = reader

    def open(self, values):
        """The pulses with which a phase begins: of the input rails, and of the DROCs, all of which are read at once."""
        pending = [wire for port, sign, wire in self.netlist.input_rails if values[port] == (sign == "p")]
        for place, q, n in self.drocs:
            wire = q if self.bit[place] else n
            self.bit[place] = 0
            if wire is not None:
                pending.append(wire)
        return pending

    def settle(self, pending, pulsed, seen):
        draw, reader, held, bit = self.draw, self.reader, self.held, self.bit
        while pending:
            place = int(draw() * len(pending))
            wire, pending[place] = pending[place], pending[-1]
            pending.pop()
            self.delivered += 1
            if self.is_rail[wire]:
                if seen[wire]:
                    raise ValueError(f"a second pulse on wire {wire}")
                seen[wire] = 1
            if reader[wire] is None:
                raise ValueError(f"wire {wire} has no reader")
            kind, cell, port, outputs = reader[wire]
            if kind == SPLIT:
                pending += outputs
            elif kind == "rail":
                pulsed[cell] = 1
            elif kind == DROC:
                if bit[cell]:
                    raise ValueError(f"an upset at cell {cell}: a second pulse at a DROC")
                bit[cell] = 1
            elif held[cell] is None:
                held[cell] = port
                if kind == FA:
                    pending += outputs
            elif held[cell] == port:
                raise ValueError(f"an upset at cell {cell}: a second pulse at one port")
            else:
                held[cell] = None
                if kind == LA:
                    pending += outputs

    def cycle(self, vector):
        """The pulses of the output rails in excite and in relax."""
        seen = bytearray(self.netlist.wires)
        rails = len(self.netlist.output_rails)
        excite, relax = [0] * rails, [0] * rails
        self.settle(self.open(vector), excite, seen)
        self.settle(self.open([1 - bit for bit in vector]), relax, seen)
        for wire, rail in enumerate(self.is_rail):
            if rail and not seen[wire]:
                raise ValueError(f"no pulse on wire {wire}")
        return excite, relax
