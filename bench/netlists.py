#!/usr/bin/env python3
"""Writes sound netlists: python3 netlists.py rising|shuffled WIRES > FILE

It begins with both rails of 64 inputs. Then a splitter and a last-arrival or first-arrival cell take turns, each on open
wires that are drawn at random, and output rails read the wires that stay open. The cells stand in rising order, or are
shuffled. The seed is fixed, so an order and a number give one file."""
import random
import sys

INPUTS = 64


def netlist(order, wires):
    draw = random.Random(20261201)
    open_wires = list(range(2 * INPUTS))
    cells = []

    def taken():
        place = draw.randrange(len(open_wires))
        open_wires[place], open_wires[-1] = open_wires[-1], open_wires[place]
        return open_wires.pop()

    made = len(open_wires)
    while made + 3 <= wires:
        cells.append(f"split {taken()} {made} {made + 1}\n")
        open_wires += [made, made + 1]
        cells.append(f"{draw.choice(('la', 'fa'))} {taken()} {taken()} {made + 2}\n")
        open_wires.append(made + 2)
        made += 3
    if order == "shuffled":
        draw.shuffle(cells)
    yield f"xsfq 1\nports {INPUTS} {len(open_wires)}\n"
    for wire in range(2 * INPUTS):
        yield f"input {wire // 2} {'pn'[wire % 2]} {wire}\n"
    yield from cells
    for port, wire in enumerate(open_wires):
        yield f"output {port} p {wire}\n"
    yield "end\n"


if __name__ == "__main__":
    sys.stdout.writelines(netlist(sys.argv[1], int(sys.argv[2])))
