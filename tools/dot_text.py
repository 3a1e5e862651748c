"""Writes the text that Graphviz draws, for tools/draw."""
from netlists import DROC, FA, LA, SPLIT, reads

# The most cells of a picture whose wires have their numbers, and the most latches with a line from front to back.
MOST_NUMBERED, MOST_LINES = 80, 3
COLOUR = {"p": "#1a56a6", "n": "#c03a12"}
SIGN = {"p": " +", "n": " -"}


def quoted(text):
    return '"' + str(text).replace("\\", "\\\\").replace('"', '\\"') + '"'


class Dot:
    """The text for Graphviz."""

    def __init__(self, picture, cells, rails, title):
        self.picture, self.shown, self.rails = picture, cells, rails
        self.path = [place for place in picture.path() if picture.with_splitters or picture.cells[place][0] != SPLIT]
        self.thick = {(one, two) for one, two in zip(self.path, self.path[1:])}
        self.numbered = len(cells) <= MOST_NUMBERED
        self.lines = ["digraph netlist {", "  rankdir=LR; nodesep=0.16; ranksep=0.45; splines=true; bgcolor=white;",
                      '  node [fontname="Helvetica", fontsize=11]; edge [fontname="Helvetica", fontsize=8, arrowsize=0.5];',
                      f'  labelloc=b; fontname="Helvetica"; fontsize=11; label={quoted(title)};']
        self.entries, self.exits, self.cut = set(), [], set()

    def text(self):
        for place in sorted(self.shown):
            self.cell(place, self.picture.cells[place])
        for place in sorted(self.shown):
            for wire in reads(self.picture.cells[place]):
                self.read(wire, place)
        for rail in self.rails:
            self.output(rail)
        drocs = [(place, self.picture.cells[place][1]) for place in sorted(self.shown) if self.picture.cells[place][0] == DROC]
        self.group("source", [f"i{place}" for place in sorted(self.entries)] + [f"c{place}" for place, role in drocs if role != "f"])
        self.group("sink", self.exits + [f"c{place}" for place, role in drocs if role == "f"])
        return "\n".join(self.lines + ["}"]) + "\n"

    def group(self, rank, nodes):
        if nodes:
            self.lines.append(f"  {{ rank={rank}; {'; '.join(nodes)}; }}")

    def cell(self, place, cell):
        picture = self.picture
        if cell[0] == SPLIT:
            if picture.with_splitters:
                self.lines.append(f'  c{place} [shape=point, width=0.09, color="{COLOUR[picture.sign(cell[1])]}"];')
        elif cell[0] in (LA, FA):
            shape, sign, fill = ("square", "p", "#e3eefb") if cell[0] == LA else ("circle", "n", "#fdebe4")
            bold = ", penwidth=2.6" if place in self.path else ""
            self.lines.append(f'  c{place} [label="{cell[0].upper()}", shape={shape}, style=filled, fillcolor="{fill}", '
                              f'color="{COLOUR[sign]}", margin=0.02, width=0.4, height=0.4{bold}];')
        else:
            self.droc(place, cell)

    def droc(self, place, cell):
        outputs = "|".join(f"<{name}> {name}" for name, wire in (("q", cell[4]), ("n", cell[5])) if wire is not None)
        if cell[1] == "c":
            what = f"constant|holds {cell[2]}"
        else:
            what = f"latch {self.picture.latch.get(place, '?')}|{'front' if cell[1] == 'f' else 'back'}, holds {cell[2]}"
        fields = f"{{{{{what}}}|{{{outputs}}}}}" if cell[1] != "f" and outputs else f"{{{{{what}}}}}"
        fill = {"c": "#eeeeee", "b": "#eaf6e6", "f": "#fff7d9"}[cell[1]]
        self.lines.append(f'  c{place} [shape=record, style=filled, fillcolor="{fill}", label="{fields}", fontsize=10];')

    def source(self, wire):
        """The node, and its port, that a wire starts from; what isn't drawn is a cut end."""
        picture = self.picture
        wire = wire if picture.with_splitters else picture.root(wire)
        kind, place = picture.driver[wire]
        if kind == "input":
            self.input(place)
            return f"i{place}", None
        if place not in self.shown:
            if wire not in self.cut:
                self.cut.add(wire)
                self.lines.append(f'  w{wire} [label="..", shape=plaintext, fontsize=10, width=0.2, height=0.15, margin=0.01];')
            return f"w{wire}", None
        cell = picture.cells[place]
        if cell[0] == DROC and cell[1] != "f":
            return f"c{place}:{'q' if cell[4] == wire else 'n'}:e", place
        return f"c{place}", place

    def input(self, place):
        if place in self.entries:
            return
        self.entries.add(place)
        port, sign, _ = self.picture.netlist.input_rails[place]
        self.lines.append(f'  i{place} [label={quoted(self.picture.netlist.input_name(port) + SIGN[sign])}, shape=cds, color="{COLOUR[sign]}", '
                          f'fontcolor="{COLOUR[sign]}", height=0.3];')

    def read(self, wire, place):
        picture, cell = self.picture, self.picture.cells[place]
        if cell[0] == SPLIT and not picture.with_splitters:
            return
        if cell[0] == DROC and cell[1] == "b":
            front = picture.front.get(place)
            if front in self.shown and len(picture.backs) <= MOST_LINES:
                self.lines.append(f'  c{front} -> c{place} [color="#9a9a9a", style=dotted, penwidth=1.2, constraint=false{self.number(wire, "#777777")}];')
            return
        node, before = self.source(wire)
        loop = ", constraint=false" if cell[0] == DROC and cell[1] == "c" else ""
        self.edge(node, f"c{place}", wire, (before, place) in self.thick, loop)

    def edge(self, node, head, wire, thick, more=""):
        sign = self.picture.sign(wire)
        style = "" if sign == "p" else ", style=dashed"
        self.lines.append(f'  {node} -> {head} [color="{COLOUR[sign]}"{style}{", penwidth=2.6" if thick else ""}{more}{self.number(wire, COLOUR[sign])}];')

    def number(self, wire, colour):
        return f', label="{wire}", fontcolor="{colour}"' if self.numbered else ""

    def output(self, rail):
        port, sign, wire = self.picture.netlist.output_rails[rail]
        self.lines.append(f'  o{rail} [label={quoted(self.picture.netlist.output_name(port) + SIGN[sign])}, shape=cds, style=filled, fillcolor="#f4f4f4", '
                          f'color="{COLOUR[sign]}", fontcolor="{COLOUR[sign]}", height=0.3];')
        self.exits.append(f"o{rail}")
        node, _ = self.source(wire)
        self.edge(node, f"o{rail}", wire, False)
