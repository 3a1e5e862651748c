#!/usr/bin/env python3
"""Times `simulate` beside a plain C engine, side by side in one run, and `workload`: see simulate.sh, which calls it."""
import sys

sys.dont_write_bytecode = True

import os
import random
import subprocess
import tempfile

from compare import table

BITS, VECTORS = 4096, 300
WIRES, FEW = 1_000_000, 3
LOADS = (512, 1024, 2048, 4096)
ORDERS = ("first", "mix:7")
HERE = os.path.dirname(os.path.abspath(__file__))


def made_by(script, *words):
    return subprocess.run([sys.executable, os.path.join(HERE, script), *words], check=True, stdout=subprocess.PIPE).stdout


def vectors(width, count):
    draw = random.Random(1)
    rows = "".join("v" + "".join(draw.choice("01") for _ in range(width)) + "\n" for _ in range(count))
    return f"vectors\n{rows}stop\n".encode()


def deliveries(program, engine, order, source):
    """How many pulses the engine delivers; what the two write has to be the same."""
    with open(source, "rb") as one, open(source, "rb") as two:
        ours = subprocess.run([program, "simulate", "--order", order], stdin=one, capture_output=True)
        theirs = subprocess.run([engine, order], stdin=two, capture_output=True)
    if ours.returncode or theirs.returncode or ours.stdout != theirs.stdout:
        sys.exit(f"simulate: the program ended with {ours.returncode}, the engine with {theirs.returncode}, or they wrote other lines")
    return int(theirs.stderr)


def compare(program, engine, title, order, netlist, tail, folder):
    """A table for the whole run, and the deliveries a second without what a run of no vectors takes."""
    whole, none = os.path.join(folder, "whole"), os.path.join(folder, "none")
    for path, rest in ((whole, tail), (none, b"vectors\nstop\n")):
        with open(path, "wb") as file:
            file.write(netlist + rest)
    count = deliveries(program, engine, order, whole)
    ours, theirs = [program, "simulate", "--order", order], [engine, order]
    rows = [
        ("xsfq `simulate`", ours, whole),
        ("C: engine.c", theirs, whole),
        ("xsfq `simulate` without vectors", ours, none),
        ("C: engine.c without vectors", theirs, none),
    ]
    answers = table(f"{title}, order `{order}`, {count:,} deliveries", rows)
    rates = [count / 1e6 / max(answers[k][0] - answers[k + 2][0], 1e-9) for k in (0, 1)]
    print(f"\n`simulate` delivers {rates[0]:.1f} million pulses a second and the C engine {rates[1]:.1f}: {rates[0] / rates[1]:.2f} of it; "
          f"the whole run takes {answers[0][0] / answers[1][0]:.2f} of its time and {answers[0][2] / answers[1][2]:.2f} of its memory.")


def main(program):
    with tempfile.TemporaryDirectory() as folder:
        engine = os.path.join(folder, "engine")
        subprocess.run(["cc", "-O2", "-o", engine, os.path.join(HERE, "engine.c")], check=True)
        counter = subprocess.run([program, "compile"], input=made_by("circuits.py", "counting", str(BITS)), check=True, stdout=subprocess.PIPE).stdout
        for order in ORDERS:
            compare(program, engine, f"A counter of {BITS:,} bits, {VECTORS} vectors", order, counter, vectors(1, VECTORS), folder)
        large = made_by("netlists.py", "shuffled", str(WIRES))
        compare(program, engine, f"A netlist of {WIRES:,} wires, {FEW} vectors", ORDERS[1], large, vectors(64, FEW), folder)
        table("Workloads", [(f"`workload {bits}`", [program, "workload", str(bits)], os.devnull) for bits in LOADS])


if __name__ == "__main__":
    main(sys.argv[1])
