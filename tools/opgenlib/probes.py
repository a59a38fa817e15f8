"""Small circuits by which the delays of cells are measured: some cells one behind the other, in Verilog."""
import random
from collections.abc import Iterator, Sequence
from dataclasses import dataclass

from .report import Port

Cells = tuple[tuple[str, int], ...]
GATE = ("logic", 1)


@dataclass(frozen=True)
class Probe:
    """A circuit without registers, and the cells on its longest path."""

    name: str
    cells: Cells
    ports: tuple[Port, ...]
    text: str


def probe(name: str, cells: Sequence[tuple[str, int]], ins: dict[str, int], outs: dict[str, int], lines: Sequence[str]) -> Probe:
    """A circuit of these ports and lines."""
    ports = tuple(Port(port, side, False, width, 0) for side, some in ((True, ins), (False, outs)) for port, width in some.items())
    heads = [f"{'input' if port.is_input else 'output'} [{port.width - 1}:0] {port.name}" for port in ports]
    body = "\n".join(f"  {line}" for line in lines)
    return Probe(name, tuple(cells), ports, f"module {name}(input clk, {', '.join(heads)});\n{body}\nendmodule\n")


def carry_save(words: Sequence[str], width: int) -> Iterator[str]:
    """Full adders that make two words of many, one behind the other: the last are `s` and `c` with the number of words less two."""
    yield f"wire [{width - 1}:0] s0 = {words[0]};"
    yield f"wire [{width - 1}:0] c0 = {words[1]};"
    for at, word in enumerate(words[2:]):
        s, c = f"s{at}", f"c{at}"
        yield f"wire [{width - 1}:0] w{at} = {word};"
        yield f"wire [{width - 1}:0] s{at + 1} = {s} ^ {c} ^ w{at};"
        yield f"wire [{width - 1}:0] c{at + 1} = (({s} & {c}) | ({s} & w{at}) | ({c} & w{at})) << 1;"


def table(to: str, address: str, bits: int, width: int, words: Sequence[int]) -> list[str]:
    """A table of these words."""
    rows = [f"{bits}'d{at}: {to} = {width}'d{word};" for at, word in enumerate(words[:-1])]
    return [f"reg [{width - 1}:0] {to};", f"always @* case ({address})", *rows, f"default: {to} = {width}'d{words[-1]};", "endcase"]


def drawn(draw: random.Random, bits: int, width: int) -> list[int]:
    """The words of a drawn table."""
    return [draw.getrandbits(width) for _ in range(1 << bits)]


def registers() -> Iterator[Probe]:
    yield probe("none_8", (), {"x": 8}, {"y": 8}, ["assign y = x;"])


def gates(width: int = 8) -> Iterator[Probe]:
    """Full adders one behind the other, and products of bits with full adders behind them."""
    for depth in (1, 2, 3, 4, 6):
        words = [f"x{at}" for at in range(depth + 2)]
        ends = [f"assign s = s{depth};", f"assign c = c{depth};"]
        lines = [*carry_save(words, width), *ends]
        yield probe(f"full_{depth}", [GATE] * depth, dict.fromkeys(words, width), {"s": width, "c": width}, lines)
    for size in (4, 6, 8):
        words = [f"({{{size}{{b[{at}]}}}} & a) << {at}" for at in range(size)]
        ends = [f"assign s = s{size - 2};", f"assign c = c{size - 2};"]
        lines = [*carry_save(words, 2 * size), *ends]
        ports = {"a": size, "b": size}, {"s": 2 * size, "c": 2 * size}
        yield probe(f"bits_{size}", [GATE] * (size - 1), *ports, lines)


def sums() -> Iterator[Probe]:
    for width in (4, 8, 16, 24, 32, 48):
        yield probe(f"add_{width}", [("add", width)], {"a": width, "b": width}, {"y": width}, ["assign y = a + b;"])
    for width in (8, 16, 24):
        lines = ["assign s = a + b;", "assign y = s - c;"]
        yield probe(f"adds_{width}", [("add", width)] * 2, dict.fromkeys("abc", width), {"s": width, "y": width}, lines)


def choices() -> Iterator[Probe]:
    for width in (4, 8, 16, 32):
        ports = {"s": 1, "a": width, "b": width}, {"y": width}
        yield probe(f"choice_{width}", [("choice", width)], *ports, ["assign y = s ? a : b;"])
    for width in (4, 8, 16):
        ports = {"s": 1, "t": 1, "a": width, "b": width, "c": width}, {"y": width}
        yield probe(f"choices_{width}", [("choice", width)] * 2, *ports, ["assign y = t ? (s ? a : b) : c;"])


def steps() -> Iterator[Probe]:
    """A difference, its inverted sign and a choice, as a digit of a quotient needs them: one digit and two."""
    for width in (4, 8, 12, 16):
        cells = [("add", width + 1), GATE, ("choice", width)]
        lines = [f"wire [{width}:0] d = {{1'b0, a}} - {{1'b0, b}};", f"wire q = ~d[{width}];", f"assign y = q ? d[{width - 1}:0] : a;"]
        yield probe(f"step_{width}", cells, {"a": width, "b": width}, {"y": width}, lines)
        if width in (4, 8, 16):
            more = [f"wire [{width}:0] e = {{y, n}} - {{1'b0, b}};", f"wire r = ~e[{width}];"]
            more.append(f"assign z = r ? e[{width - 1}:0] : {{y[{width - 2}:0], n}};")
            ports = {"a": width, "b": width, "n": 1}, {"y": width, "z": width}
            yield probe(f"steps_{width}", cells * 2, *ports, lines + more)


def tables(draw: random.Random) -> Iterator[Probe]:
    for bits in (2, 3, 4, 5, 6):
        lines = table("t", "x", bits, 8, drawn(draw, bits, 8))
        yield probe(f"table_{bits}", [("table", bits)], {"x": bits}, {"y": 8}, [*lines, "assign y = t;"])
    for count in (2, 3):
        lines = table("t0", "x[5:0]", 6, 6, drawn(draw, 6, 6))
        for at in range(1, count):
            lines += table(f"t{at}", f"{{t{at - 1}[2:0], x[{3 * at + 5}:{3 * at + 3}]}}", 6, 6, drawn(draw, 6, 6))
        lines.append(f"assign y = {{{', '.join(f't{at}' for at in range(count))}}};")
        yield probe(f"tables_{count}", [("table", 6)] * count, {"x": 3 * count + 3}, {"y": 6 * count}, lines)


def heaps(draw: random.Random) -> Iterator[Probe]:
    """Tables of multiples of a number, full adders and a sum, and products of bits, full adders and a sum."""
    for count in (3, 4, 6):
        lines = []
        for at in range(count):
            factor = 2 * draw.getrandbits(6) + 1
            lines += table(f"t{at}", f"x{at}", 6, 12, [factor * number % (1 << 12) for number in range(64)])
        lines += [*carry_save([f"t{at}" for at in range(count)], 12), f"assign y = s{count - 2} + c{count - 2};"]
        cells = [("table", 6), *[GATE] * (count - 2), ("add", 12)]
        yield probe(f"heap_{count}", cells, {f"x{at}": 6 for at in range(count)}, {"y": 12}, lines)
    for size in (4, 6):
        words = [f"({{{size}{{b[{at}]}}}} & a) << {at}" for at in range(size)]
        lines = [*carry_save(words, 2 * size), f"assign y = s{size - 2} + c{size - 2};"]
        yield probe(f"product_{size}", [*[GATE] * (size - 1), ("add", 2 * size)], {"a": size, "b": size}, {"y": 2 * size}, lines)


def all_probes() -> list[Probe]:
    """All of them, the same each time."""
    draw = random.Random(1)
    return [*registers(), *gates(), *sums(), *choices(), *steps(), *tables(draw), *heaps(draw)]
