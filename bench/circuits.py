#!/usr/bin/env python3
"""Writes circuits as binary AIGER 1.9: python3 circuits.py counter|random CONJUNCTIONS > FILE, or counting BITS

A counter has an enable, a shift and six conjunctions a bit; the counting one has an enable and three; a random circuit has 64 inputs, 64 latches and 64 outputs, and
each conjunction reads two of the 512 literals before it, with either sign. The seed is fixed, so a kind and a
number give one file."""
import random
import sys


def delta(number):
    """A number in the binary format's groups of seven bits, the lowest first."""
    groups = bytearray()
    while number >= 128:
        groups.append(number % 128 + 128)
        number //= 128
    groups.append(number)
    return bytes(groups)


def written(inputs, nexts, outputs, conjunctions):
    """The file of a circuit: latches by their next literals, conjunctions by pairs of literals."""
    first = inputs + len(nexts) + 1
    head = f"aig {first - 1 + len(conjunctions)} {inputs} {len(nexts)} {len(outputs)} {len(conjunctions)}\n"
    lines = "".join(f"{literal}\n" for literal in nexts + outputs)
    body = b"".join(
        delta(2 * (first + place) - max(pair)) + delta(max(pair) - min(pair))
        for place, pair in enumerate(conjunctions)
    )
    return head.encode() + lines.encode() + body


def counter(size):
    """Counts where input 0 is 1; where input 1 is 1 it shifts, and takes input 2 as its lowest bit."""
    bits = size // 6
    latch = lambda bit: 2 * (4 + bit)
    conjunctions, nexts = [], []

    def conjunction(one, other):
        conjunctions.append((one, other))
        return 2 * (3 + bits + len(conjunctions))

    enable, shift, lowest = 2, 4, 6
    carry, below = enable, lowest
    for bit in range(bits):
        both = conjunction(latch(bit), carry)
        neither = conjunction(latch(bit) ^ 1, carry ^ 1)
        counted = conjunction(both ^ 1, neither ^ 1)
        kept = conjunction(counted, shift ^ 1)
        shifted = conjunction(below, shift)
        nexts.append(conjunction(kept ^ 1, shifted ^ 1) ^ 1)
        carry, below = both, latch(bit)
    return written(3, nexts, [latch(bit) for bit in range(bits)], conjunctions)


def counting(bits):
    """Counts where input 0 is 1, and does nothing else."""
    latch = lambda bit: 2 * (2 + bit)
    conjunctions, nexts, carry = [], [], 2
    for bit in range(bits):
        both = 2 * (2 + bits + len(conjunctions))
        conjunctions += [(latch(bit), carry), (latch(bit) ^ 1, carry ^ 1), (both ^ 1, both + 3)]
        nexts.append(both + 4)
        carry = both
    return written(1, nexts, [latch(bit) for bit in range(bits)], conjunctions)


def randomly(size):
    draw = random.Random(1)
    conjunctions = []
    literals = 2 * (1 + 64 + 64)
    while len(conjunctions) < size:
        low = max(2, literals - 512)
        one, other = draw.randrange(low, literals), draw.randrange(low, literals)
        if one // 2 != other // 2:
            conjunctions.append((one, other))
            literals += 2
    any_literal = lambda: draw.randrange(literals - 512, literals)
    return written(64, [any_literal() for _ in range(64)], [any_literal() for _ in range(64)], conjunctions)


if __name__ == "__main__":
    kind, size = sys.argv[1], int(sys.argv[2])
    sys.stdout.buffer.write({"counter": counter, "counting": counting, "random": randomly}[kind](size))
