"""A trial of the program by tools/differ: how it is called, and how its netlists are run."""
import os
import random
import shutil
import subprocess

from netlists import DROC, Netlist, Pulses
from sources import read_aiger

SIGNS = {"p": "p", "n": "n", "both": "pn"}  # the rails that `compile --rails` makes of each output


class Trial:
    """The program that is tried, the draws, what judges there are, and the figures of what was done and found."""

    def __init__(self, program, seed):
        self.program, self.draw = os.path.abspath(program), random.Random(seed)
        self.abc = shutil.which("berkeley-abc") or shutil.which("abc")
        self.simulates = run(self.program, "simulate", text="xsfq 1\nports 0 0\nend\nvectors\nstop\n").returncode == 0
        self.random, self.examples, self.cycles, self.pulses, self.faults = 0, 0, 0, 0, 0
        self.by = {}

    def fault(self, name, text):
        self.faults += 1
        print(f"FAILED {name}: {text}")

    def judged(self, judge):
        self.by[judge] = self.by.get(judge, 0) + 1

    def ask(self):
        return self.draw.choice(tuple(SIGNS))

    def told(self):
        judges = ", ".join(f"{judge} {count:,}" for judge, count in self.by.items()) or "nothing"
        return (f"differ: {self.random:,} random circuits and {self.examples:,} examples, {self.cycles:,} cycles, "
                f"{self.pulses:,} pulses in random order; compared with {judges}; {self.faults:,} differ")


def run(program, *words, text):
    return subprocess.run([program, *words], input=text.encode("latin-1") if isinstance(text, str) else text, capture_output=True)


def compiled(program, source, ask, version="1"):
    """The netlist's text, or a ValueError with the program's code and note."""
    done = run(program, "compile", "--rails", ask, "--format", version, text=source)
    if done.returncode != 0:
        raise ValueError(f"code {done.returncode}, {done.stderr.decode('latin-1').strip()}")
    return done.stdout.decode("latin-1")


def check_names(netlist, circuit):
    for names, wanted in ((netlist.input_names, circuit.input_names), (netlist.output_names, circuit.output_names)):
        if names != {port: name for port, name in enumerate(wanted) if name is not None}:
            raise ValueError("the netlist has other ports' names")
    if (netlist.inputs, netlist.outputs) != (len(circuit.inputs), len(circuit.outputs)):
        raise ValueError("the netlist has another number of ports")


def run_pulses(trial, netlist, ask, vectors):
    """The outputs' bits for each vector, as the rails tell them; the rails have to be those that were asked."""
    asked = [(port, sign) for port in range(netlist.outputs) for sign in SIGNS[ask]]
    if [rail[:2] for rail in netlist.output_rails] != asked:
        raise ValueError("the output rails are not those that were asked")
    pulses, answers = Pulses(netlist, trial.draw.random), []
    for vector in vectors:
        excite, relax = pulses.cycle(vector)
        bits = {}
        for (port, sign), one, two in zip(asked, excite, relax):
            if one == two or bits.setdefault(port, one ^ (sign == "n")) != one ^ (sign == "n"):
                raise ValueError(f"the rails of output {port} contradict each other")
        answers.append([bits[port] for port in range(netlist.outputs)])
    trial.cycles += len(vectors)
    trial.pulses += pulses.delivered
    return answers


def run_states(trial, source, first, ask, vectors):
    """In version 2 the state lines name all backs, each of which holds its latch's bit where a cycle begins and at the end, in random order.

    The netlist's text in version 1 is given; but for the state lines they are alike."""
    text = compiled(trial.program, source, ask, "2")
    if [line for line in text.split("\n") if not line.startswith("state ")] != ["xsfq 2", *first.split("\n")[1:]]:
        raise ValueError("version 2 differs in more than state lines")
    netlist, circuit = Netlist(text), read_aiger(source)
    if [cell for _, cell in netlist.states] != [place for place, cell in enumerate(netlist.cells) if cell[:2] == (DROC, "b")]:
        raise ValueError("the state lines are not those of the backs")
    pulses = Pulses(netlist, trial.draw.random)
    for cycle, vector in enumerate([*vectors, None]):
        if any(pulses.bit[cell] != circuit.state[latch] for latch, cell in netlist.states):
            raise ValueError(f"a back holds another bit than its latch where cycle {cycle} begins")
        if vector is not None:
            pulses.cycle(vector)
            circuit.step(vector)
    trial.cycles += len(vectors)
    trial.pulses += pulses.delivered


def run_program(trial, text, ask, vectors, answers):
    """Whether the program's own simulation says the same."""
    tail = "".join(f"v{''.join(map(str, vector))}\n" for vector in vectors)
    done = run(trial.program, "simulate", "--order", f"mix:{len(text)}", text=f"{text}vectors\n{tail}stop\n")
    wanted = []
    for cycle, bits in enumerate(answers):
        excite = [bit ^ (sign == "n") for bit in bits for sign in SIGNS[ask]]
        relax = [1 - pulse for pulse in excite]
        wanted.append(f"{cycle} {''.join(map(str, excite))} {''.join(map(str, relax))}\n")
    if done.stdout.decode("latin-1") != "".join(wanted):
        raise ValueError(f"simulate, code {done.returncode}, tells other values")
