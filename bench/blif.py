#!/usr/bin/env python3
"""Times `compile` of BLIF beside ABC, side by side in one run: see blif.sh, which calls it."""
import sys

sys.dont_write_bytecode = True

import os
import shutil
import subprocess
import tempfile

from compare import table

PROCESSORS = 48
TOP = os.path.dirname(os.path.dirname(os.path.abspath(__file__)))


def abc_runs(abc, script):
    return [abc, "-q", script]


def multiplier(abc, folder):
    """ABC's multiplier, as ABC writes it once it is all conjunctions."""
    made = os.path.join(folder, "multiplier.blif")
    drawn = os.path.join(folder, "drawn.blif")
    subprocess.run(abc_runs(abc, f"gen -N 100 -m {drawn}; read {drawn}; strash; write_blif {made}"), check=True, stdout=subprocess.DEVNULL)
    return made


def ring(count):
    """So many of the examples' processors, each of which reads the port of the one before it."""
    return (f"module ring(input clk, input reset, input [15:0] instruction, output [7:0] address, output [7:0] last);\n"
            f"  wire [7:0] ports [0:{count}];\n  wire [7:0] addresses [0:{count - 1}];\n"
            f"  assign ports[0] = addresses[{count - 1}];\n  assign last = ports[{count}];\n  assign address = addresses[0];\n"
            f"  genvar k;\n  generate for (k = 0; k < {count}; k = k + 1) begin: each\n"
            f"    processor one(.clk(clk), .reset(reset), .instruction(instruction ^ k), .port_in(ports[k]),\n"
            f"      .address(addresses[k]), .port_out(ports[k + 1]));\n  end endgenerate\nendmodule\n")


def processors(yosys, folder):
    """A larger design as Yosys writes it, by the passes of examples/flow.sh without `abc`: its cells are Yosys' own gates."""
    design, made = os.path.join(folder, "ring.v"), os.path.join(folder, "ring.blif")
    with open(design, "w") as file:
        file.write(ring(PROCESSORS))
    script = (f"read_verilog {design} {os.path.join(TOP, 'examples', 'processor.v')}; hierarchy -check -top ring; proc; flatten; check -assert; "
              "synth -top ring -noabc; async2sync; dfflegalize -cell $_DFF_P_ 01 -cell $_DFF_N_ 01; setundef -zero; "
              f"opt_clean -purge; write_blif {made}")
    subprocess.run([yosys, "-q", "-p", script], check=True, stdout=subprocess.DEVNULL, stderr=subprocess.DEVNULL)
    return made


def counts(source):
    """How many covers and latches a BLIF file has."""
    with open(source) as text:
        words = [line.split(" ", 1)[0].strip() for line in text if line.startswith((".names", ".latch"))]
    return f"{words.count('.names'):,} covers, {words.count('.latch'):,} latches, {os.path.getsize(source) / 1e6:.1f} MB"


def compare(program, abc, title, source, folder):
    out = os.path.join(folder, "out.blif")
    rows = [
        ("xsfq `compile`", [program, "compile"], source),
        ("ABC `read_blif; strash; write_blif`", abc_runs(abc, f"read_blif {source}; strash; write_blif {out}"), os.devnull),
    ]
    answers = table(f"{title} ({counts(source)})", rows)
    print(f"\n`compile` takes {answers[0][0] / answers[1][0]:.2f} of ABC's time and {answers[0][2] / answers[1][2]:.2f} of its memory.")


def main(program, abc, yosys):
    with tempfile.TemporaryDirectory() as folder:
        compare(program, abc, "A multiplier of 100 bits (ABC's `gen -N 100 -m`) as BLIF by ABC", multiplier(abc, folder), folder)
        if yosys:
            title = f"{PROCESSORS} of the examples' processors in a ring, as BLIF by Yosys"
            compare(program, abc, title, processors(yosys, folder), folder)
        else:
            print("\nblif: yosys is not installed: no design of it is compiled")


if __name__ == "__main__":
    main(sys.argv[1], sys.argv[2], shutil.which("yosys"))
