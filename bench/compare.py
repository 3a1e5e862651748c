#!/usr/bin/env python3
"""Times `compile` beside ABC and Yosys, side by side in one run: see compare.sh, which calls it."""
import math
import os
import shutil
import statistics
import subprocess
import sys
import tempfile
import time

RUNS = 15
SIZES = (10_000, 20_000, 40_000, 80_000)


def run(command, source):
    """Seconds of one run, which must succeed."""
    with open(source, "rb") as text:
        start = time.perf_counter()
        status = subprocess.run(command, stdin=text, stdout=subprocess.DEVNULL, stderr=subprocess.DEVNULL).returncode
        seconds = time.perf_counter() - start
    if status != 0:
        sys.exit(f"compare: {' '.join(command)} ended with {status}")
    return seconds


def peak(command, source):
    """Peak megabytes of one run, by GNU time: a process of Python's own would count Python's memory."""
    with open(source, "rb") as text, tempfile.NamedTemporaryFile("r") as told:
        subprocess.run(["/usr/bin/time", "-f", "%M", "-o", told.name, *command], stdin=text, stdout=subprocess.DEVNULL, stderr=subprocess.DEVNULL)
        return int(told.read().split()[-1]) / 1024


def side_by_side(rows):
    """Medians of commands that take turns: (seconds, their middle half, peak megabytes) for each."""
    taken = [[] for _ in rows]
    for _ in range(RUNS):
        for place, (_, command, source) in enumerate(rows):
            taken[place].append(run(command, source))
    answers = []
    for (_, command, source), runs in zip(rows, taken):
        runs.sort()
        answers.append((statistics.median(runs), runs[11] - runs[3], peak(command, source)))
    return answers


def table(title, rows):
    print(f"\n{title}\n\n| what | median | middle half | peak memory |\n|---|---|---|---|")
    answers = side_by_side(rows)
    for (name, _, _), (seconds, spread, most) in zip(rows, answers):
        print(f"| {name} | {1000 * seconds:.1f} ms | ±{500 * spread:.1f} ms | {most:.1f} MB |")
    return answers


def main(program, abc, yosys):
    here = os.path.dirname(os.path.abspath(__file__))
    with tempfile.TemporaryDirectory() as folder:
        made = lambda name: os.path.join(folder, name)
        abc_runs = lambda script: [abc, "-q", script]
        subprocess.run(
            abc_runs(f"gen -N 100 -m {made('m.blif')}; read {made('m.blif')}; strash; write_aiger {made('multiplier.aig')}"),
            check=True, stdout=subprocess.DEVNULL,
        )
        with open(made("empty.aag"), "w") as empty:
            empty.write("aag 0 0 0 0 0\n")
        for kind in ("counter", "random"):
            for size in SIZES:
                with open(made(f"{kind}{size}.aig"), "wb") as circuit:
                    subprocess.run([sys.executable, os.path.join(here, "circuits.py"), kind, str(size)], check=True, stdout=circuit)

        compile = [program, "compile"]
        multiplier = made("multiplier.aig")
        rows = [
            ("xsfq `compile`", compile, multiplier),
            ("ABC `read; strash; write_blif`", abc_runs(f"read {multiplier}; strash; write_blif {made('out.blif')}"), os.devnull),
        ]
        if yosys:
            rows.append(("Yosys `read_aiger; write_blif`", [yosys, "-q", "-p", f"read_aiger {multiplier}; write_blif {made('out.blif')}"], os.devnull))
        answers = table("A multiplier of 100 bits (ABC's `gen -N 100 -m`) as binary AIGER", rows)
        print(f"\n`compile` takes {answers[0][0] / answers[1][0]:.2f} of ABC's time and {answers[0][2] / answers[1][2]:.2f} of its memory.")

        table("Start-up", [("xsfq `compile` on an empty circuit", compile, made("empty.aag"))])
        for kind in ("counter", "random"):
            sources = [(f"{size:,} conjunctions", compile, made(f"{kind}{size}.aig")) for size in SIZES]
            answers = table(f"Growth: {kind}", sources)
            exponent = math.log(answers[-1][0] / answers[0][0]) / math.log(SIZES[-1] / SIZES[0])
            print(f"\nGrowth exponent from {SIZES[0]:,} to {SIZES[-1]:,}: {exponent:.2f}")


if __name__ == "__main__":
    main(sys.argv[1], sys.argv[2], shutil.which("yosys"))
