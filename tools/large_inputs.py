"""The worst inputs that the limits allow, for tools/try-large: each function yields an input in pieces of bytes."""
import random

SOURCE_BYTES, NETLIST_BYTES = 67_108_864, 134_217_728
PORTS, SIZE, NETS, WIRES, NAME, VECTORS = 16_384, 262_144, 524_288, 4_194_304, 1_023, 16_384
LARGEST = 4_294_967_295
BLOCK = 4_096


def repeated(piece, count):
    for _ in range(count // BLOCK):
        yield piece * BLOCK
    yield piece * (count % BLOCK)


def lines(make, numbers):
    """One line, or some, for each number; many in one piece."""
    held = []
    for number in numbers:
        held.append(make(number))
        if len(held) == BLOCK:
            yield "".join(held).encode()
            held.clear()
    yield "".join(held).encode()


def filled(head, piece, tail, size):
    """A head, as many pieces as fit, line feeds, and a tail: so many bytes."""
    count, rest = divmod(size - len(head) - len(tail), len(piece))
    yield head
    yield from repeated(piece, count)
    yield b"\n" * rest + tail


def backward(count):
    return range(count - 1, -1, -1)


# Sources.

def buffers():
    count = SIZE // 2
    yield f".model m\n.inputs n0\n.outputs n{count}\n".encode()
    yield from lines(lambda k: f".names n{k} n{k + 1}\n1 1\n", backward(count))
    yield b".end\n"


def text_of(piece, tail=b"\n.end\n", size=SOURCE_BYTES):
    return filled(b".model m\n", piece, tail, size)


def rows(row, count):
    yield b".model m\n.inputs a\n.outputs y\n.names a y\n"
    yield from repeated(row, count)
    yield b".end\n"


def wide_row():
    """One row with a literal for each of as many columns as the size allows."""
    count = SIZE - 1
    yield b".model m\n.inputs a\n.outputs y\n.names"
    yield from repeated(b" a", count)
    yield b" y\n"
    yield from repeated(b"1", count)
    yield b" 1\n.end\n"


def table_of_rows(columns):
    """As many rows as the size allows, each with a literal for each column, of a drawn sign; the seed is fixed."""
    draw = random.Random(1)
    inputs = " ".join(f"i{k}" for k in range(columns))
    yield f".model m\n.inputs {inputs}\n.outputs y\n.names {inputs} y\n".encode()
    yield from lines(lambda k: f"{draw.getrandbits(columns):0{columns}b} 1\n", range(SIZE // (columns + 1)))
    yield b".end\n"


def constants():
    """Each net there can be is a cover without rows."""
    yield b".model m\n"
    yield from lines(lambda k: f".names n{k}\n", range(NETS))
    yield b".end\n"


def latches():
    """A ring of as many latches as there can be."""
    yield b".model m\n.outputs n0\n"
    yield from lines(lambda k: f".latch n{(k + 1) % PORTS} n{k} {k % 2}\n", range(PORTS))
    yield b".end\n"


def long_name(kind, k):
    return f"{kind}{k:05}" + "x" * (NAME - 6)


def named_ports():
    """Each input has a long name, and is an output too."""
    for head in (".model m\n.inputs", "\n.outputs"):
        yield head.encode()
        yield from lines(lambda k: " " + long_name("p", k), range(PORTS))
    yield b"\n.end\n"


def named_symbols():
    yield f"aag {PORTS} {PORTS} 0 {PORTS} 0\n".encode()
    yield from lines(lambda k: f"{2 * k + 2}\n", list(range(PORTS)) * 2)
    for kind in "io":
        yield from lines(lambda k: f"{kind}{k} {long_name(kind, k)}\n", range(PORTS))


def conjunctions():
    """Each conjunction reads the one before it, and stands before it in the text."""
    count = SIZE // 3
    yield f"aag {count + 1} 1 0 1 {count}\n2\n{2 * count + 2}\n".encode()
    yield from lines(lambda k: f"{2 * k + 4} {2 * k + 3} 2\n", backward(count))


def drawn_conjunctions():
    """Each conjunction reads two of the 256 nets before it, with drawn signs; the seed is fixed."""
    draw, count = random.Random(1), SIZE // 3

    def line(k):
        one, two = draw.sample(range(k + 1, k + 257), 2)
        return f"{2 * k + 514} {2 * one + draw.randint(0, 1)} {2 * two + draw.randint(0, 1)}\n"

    yield f"aag {count + 256} 256 0 256 {count}\n".encode()
    yield from lines(lambda k: f"{2 * k + 2}\n", range(256))
    yield from lines(lambda k: f"{2 * (count + 256 - k)}\n", range(256))
    yield from lines(line, range(count))


def fan_out():
    yield f"aag 1 1 0 {PORTS} 0\n2\n".encode()
    yield from lines(lambda k: f"{2 + k % 2}\n", range(PORTS))


def behind(tail):
    """An empty circuit, and as much behind it as a source can have."""
    return filled(b"aag 0 0 0 0 0\n" + tail, b"a comment of thirty-two bytes ..\n" if tail else b"\n", b"", SOURCE_BYTES)


def header(kind, *numbers):
    yield f"{kind} {' '.join(map(str, numbers))}\n".encode()


# Netlists. Splitters in a chain: the one of number k reads wire 2 k, and drives 2 k + 1, which an output rail reads, and 2 k + 2.

def chain(count, order=range):
    yield b"xsfq 1\nports 1 1\ninput 0 p 0\n"
    yield from lines(lambda k: f"split {2 * k} {2 * k + 1} {2 * k + 2}\n", order(count))
    yield from lines(lambda k: f"output 0 p {2 * k + 1}\n", range(count))
    yield f"output 0 p {2 * count}\nend\n".encode()


def tree(leaves):
    """A splitter of number k reads wire k, and drives 2 k + 1 and 2 k + 2."""
    yield b"xsfq 1\nports 1 1\ninput 0 p 0\n"
    yield from lines(lambda k: f"split {k} {2 * k + 1} {2 * k + 2}\n", range(leaves - 1))
    yield from lines(lambda k: f"output 0 p {k}\n", range(leaves - 1, 2 * leaves - 1))
    yield b"end\n"


def named_rails():
    yield f"xsfq 1\nports {PORTS} {PORTS}\n".encode()
    for kind in ("input", "output"):
        yield from lines(lambda k: f"{kind} {k} p {k}\n", range(PORTS))
    for kind in ("iname", "oname"):
        yield from lines(lambda k: f"{kind} {k} {long_name(kind[0], k)}\n", range(PORTS))
    yield b"end\n"


def netlist_of(line, size=NETLIST_BYTES):
    """A netlist's text of one line again and again; it ends as it should."""
    head, tail = b"xsfq 1\nports 1 1\n", b"end\n"
    yield head
    yield from repeated(line, (size - len(head) - len(tail)) // len(line))
    yield tail


def one_line(size):
    yield from repeated(b"x", size)


# What stands behind a netlist.

def followed(netlist, *tails):
    yield from netlist
    for tail in tails:
        yield from tail


def one_vector():
    yield b"vectors\nv1\nstop\n"


def many_vectors(count, width):
    """Behind a netlist with so many input ports, of which one has a rail."""
    yield f"xsfq 1\nports {width} 1\ninput 0 p 0\noutput 0 p 0\nend\nvectors\n".encode()
    row = b"v" + b"10" * (width // 2) + b"1" * (width % 2) + b"\n"
    for _ in range(count):
        yield row
    yield b"stop\n"


def long_script():
    yield b"xsfq 1\nports 1 1\ninput 0 p 0\noutput 0 p 0\nend\n"
    head, tail = b"vectors\nv1\ndeliver", b"\ndeliver\nstop\n"
    yield head
    yield from repeated(b" 0", (NETLIST_BYTES - len(head) - len(tail)) // 2)
    yield tail


def rising_script(wires):
    """Delivers every wire in excite, in the order of their numbers, and nothing in relax."""
    yield b"vectors\nv1\ndeliver"
    yield from lines(lambda k: f" {k}", range(wires))
    yield b"\ndeliver\nstop\n"
