#!/usr/bin/env python3
"""Times `check` and `report` beside a plain C program that reads the same numbers, side by side in one run: see check.sh, which calls it."""
import sys

sys.dont_write_bytecode = True

import math
import os
import subprocess
import tempfile

from compare import table

SIZES = (125_000, 250_000, 500_000, 1_000_000)


def main(program):
    here = os.path.dirname(os.path.abspath(__file__))
    with tempfile.TemporaryDirectory() as folder:
        made = lambda name: os.path.join(folder, name)
        subprocess.run(["cc", "-O2", "-o", made("numbers"), os.path.join(here, "numbers.c")], check=True)
        for order in ("rising", "shuffled"):
            for size in SIZES:
                with open(made(f"{order}{size}"), "wb") as text:
                    subprocess.run([sys.executable, os.path.join(here, "netlists.py"), order, str(size)], check=True, stdout=text)

        check = [program, "check"]
        for order in ("rising", "shuffled"):
            text = made(f"{order}{SIZES[-1]}")
            rows = [("xsfq `check`", check, text),
                    ("C: numbers.c by bytes", [made("numbers")], text),
                    ("C: numbers.c by `scanf`", [made("numbers"), "scanf"], text), ("xsfq `report`", [program, "report"], text)]
            megabytes = os.path.getsize(text) / 1e6
            answers = table(f"A netlist of {SIZES[-1]:,} wires ({megabytes:.1f} MB), cells in {order} order", rows)
            check_time, by_bytes, by_scanf, report_time = (answer[0] for answer in answers)
            print(f"\n`check` takes {check_time / by_scanf:.2f} of the time of C's `scanf` and {check_time / by_bytes:.2f} of that of its bytes, "
                  f"`report` {report_time / by_scanf:.2f} and {report_time / by_bytes:.2f}.")
            answers = table(f"Growth: {order}", [(f"{size:,} wires", check, made(f"{order}{size}")) for size in SIZES])
            exponent = math.log(answers[-1][0] / answers[0][0]) / math.log(SIZES[-1] / SIZES[0])
            print(f"\nGrowth exponent from {SIZES[0]:,} to {SIZES[-1]:,}: {exponent:.2f}")


if __name__ == "__main__":
    main(sys.argv[1])
