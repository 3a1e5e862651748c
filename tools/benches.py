"""Runs a design in Verilog, as it was written, on vectors: by Yosys' `sim` and by Icarus Verilog, for tools/differ."""
import os
import re
import subprocess


def ports(names):
    """Ports by base name with their widths, in order of first appearance: a[0], a[1], b are a of 2 bits and b of 1."""
    widths = {}
    for name in names:
        base, bit = re.fullmatch(r"(.*?)(?:\[(\d+)\])?", name).groups()
        widths[base] = max(widths.get(base, 0), int(bit or 0) + 1)
    return widths


def design_vectors(draw, names, count):
    """Random vectors for a design's inputs. An input of one bit is 1 with a chance that stands for 16 cycles, so that queues
    fill and run empty; `reset` is mostly 0."""
    widths = ports(names)
    vectors = []
    for cycle in range(count):
        if cycle % 16 == 0:
            chance = {base: 0.03 if base == "reset" else draw.choice((0.1, 0.5, 0.9)) if width == 1 else 0.5 for base, width in widths.items()}
        vectors.append([int(draw.random() < chance[name.split("[")[0]]) for name in names])
    return vectors


class Bench:
    """A test bench in Verilog for a design with a clock named `clk`, or none, and the ports that its AIGER file names."""

    def __init__(self, top, input_names, output_names, vectors):
        self.top, self.input_names, self.output_names, self.vectors = top, input_names, output_names, vectors
        self.input_widths, self.output_widths = ports(input_names), ports(output_names)
        self.has_clock = self.input_widths.pop("clk", None) is not None
        self.width = sum(self.input_widths.values())

    def word(self, vector):
        """A vector as one binary number, the first port's lowest bit at its end; the clock is left out."""
        bits = dict(zip(self.input_names, vector))
        names = [name for base, width in self.input_widths.items() for name in bit_names(base, width, bits)]
        return "".join(str(bits[name]) for name in reversed(names))

    def instance(self):
        pins, low = [".clk(clk)"] if self.has_clock else [], 0
        for base, width in self.input_widths.items():
            pins.append(f".{base}(stimulus[{low + width - 1}:{low}])")
            low += width
        pins += [f".{base}(out_{base})" for base in self.output_widths]
        wires = "".join(f"  wire [{width - 1}:0] out_{base};\n" for base, width in self.output_widths.items())
        return wires + f"  {self.top} tried({', '.join(pins)});\n"

    def all_outputs(self):
        return "{" + ", ".join(f"out_{base}" for base in reversed(self.output_widths)) + "}"

    def bits(self, word):
        """One word of all outputs as a list in the order of the ports."""
        names = [name for base, width in self.output_widths.items() for name in bit_names(base, width, self.output_names)]
        values = dict(zip(names, reversed(word)))
        return [values[name] for name in self.output_names]

    def for_yosys(self):
        """The vectors are a table that a register counts through, so that `sim` needs no file beside it."""
        rows = "".join(f"    {k}: stimulus = {self.width}'b{self.word(vector)};\n" for k, vector in enumerate(self.vectors))
        total = sum(self.output_widths.values())
        return (f"module bench(input clk, output [{total - 1}:0] told);\n  reg [31:0] cycle = 0;\n  always @(posedge clk) cycle <= cycle + 1;\n"
                f"  reg [{self.width - 1}:0] stimulus;\n  always @* case (cycle)\n{rows}    default: stimulus = 0;\n  endcase\n"
                f"{self.instance()}  assign told = {self.all_outputs()};\nendmodule\n")

    def for_icarus(self):
        count = len(self.vectors)
        return (f"module bench;\n  reg clk = 0;\n  reg [{self.width - 1}:0] table_of [0:{count - 1}];\n  reg [{self.width - 1}:0] stimulus;\n"
                f"  integer cycle;\n{self.instance()}  initial begin\n    $readmemb(\"vectors\", table_of);\n"
                f"    for (cycle = 0; cycle < {count}; cycle = cycle + 1) begin\n      stimulus = table_of[cycle];\n      #1 $display(\"%b\", {self.all_outputs()});\n"
                "      clk = 1;\n      #1 clk = 0;\n      #1;\n    end\n  end\nendmodule\n")


def bit_names(base, width, known):
    return [base] if width == 1 and base in known else [f"{base}[{bit}]" for bit in range(width)]


def by_yosys(design, bench, folder):
    """The words of all outputs, cycle by cycle, by Yosys' `sim` of the design as it was written."""
    with open(os.path.join(folder, "bench.v"), "w") as file:
        file.write(bench.for_yosys())
    script = (f"read_verilog \"{design}\" bench.v; hierarchy -top bench; proc; memory -nomap; opt_clean; "
              f"sim -clock clk -n {len(bench.vectors)} -vcd told.vcd bench")
    subprocess.run(["yosys", "-q", "-p", script], cwd=folder, check=True, stdout=subprocess.DEVNULL, stderr=subprocess.PIPE)
    with open(os.path.join(folder, "told.vcd")) as file:
        return samples(file.read(), "told", len(bench.vectors))


def samples(vcd, name, count):
    """The values of the top scope's variable while the clock is low in each cycle: `sim` has it fall at 10 k + 5."""
    head, _, body = vcd.partition("$enddefinitions")
    mark = re.search(rf"\$var \w+ \d+ (\S+) {name}(?: \[[^\]]*\])? \$end", head).group(1)
    width = int(re.search(rf"\$var \w+ (\d+) {re.escape(mark)} ", head).group(1))
    value, at, words = None, 0, []
    for line in body.split("\n") + [f"#{10 * count + 10}"]:
        if line.startswith("#"):
            # What stood before this instant is the value up to it.
            while len(words) < count and int(line[1:]) >= 10 * len(words) + 10:
                words.append(value)
        elif line.startswith("b") and line.split()[1] == mark:
            value = line.split()[0][1:].rjust(width, "0")
        elif width == 1 and line[1:] == mark:
            value = line[0]
    return words


def by_icarus(design, bench, folder):
    """The same by Icarus Verilog."""
    with open(os.path.join(folder, "bench.v"), "w") as file:
        file.write(bench.for_icarus())
    with open(os.path.join(folder, "vectors"), "w") as file:
        file.write("".join(bench.word(vector) + "\n" for vector in bench.vectors))
    subprocess.run(["iverilog", "-g2012", "-o", "bench", design, "bench.v"], cwd=folder, check=True, capture_output=True)
    return subprocess.run(["vvp", "-n", "bench"], cwd=folder, check=True, capture_output=True, text=True).stdout.split()
