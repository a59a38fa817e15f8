"""What each cell of a circuit does, as `digit 5: subtract` or `column 7: sum`: found from how its cells read each other."""
import re
from collections.abc import Iterable, Iterator
from dataclasses import dataclass

from opgenlib import vhdl
from opgenlib.drawings.adders import Multiples, is_sum, read_place
from opgenlib.drawings.example import Example

# A signal and one of its bits.
Bit = tuple[str, int]
PRODUCT = "product of bits"
RANGE_TEST = "test of the range"
MULTIPLE = r"-?\d+ x"
# The most multiples that are named one by one.
MOST_WORDS = 6


@dataclass(frozen=True, order=True)
class Part:
    """Where a cell is and what it does there: `column`, 7, `sum`, or what it does alone; of a polynomial in which step of Horner's
    rule, from 1."""

    where: str
    at: int
    what: str
    step: int = 0

    @property
    def words(self) -> str:
        return words_of([self])


def words_of(parts: list[Part]) -> str:
    """One part, or several that are drawn as one: `columns 3 to 9: sum, carry (24 cells)`."""
    named = []
    for step in sorted({part.step for part in parts}):
        named.append((f"step {step}, " if step else "") + "; ".join(places_of([part for part in parts if part.step == step])))
    return "; ".join(named) + (f" ({len(parts)} cells)" if len(parts) > 1 else "")


def places_of(parts: list[Part]) -> Iterator[str]:
    for where in sorted({part.where for part in parts}):
        inside = [part for part in parts if part.where == where]
        first, last = min(part.at for part in inside), max(part.at for part in inside)
        place = f"{where} {first}: " if first == last else f"{where}s {first} to {last}: "
        what = sorted({part.what for part in inside}, reverse=True)
        tables = len(what) > 1 and all(word.startswith("table of ") for word in what)
        if len(what) > MOST_WORDS and all(re.fullmatch(MULTIPLE, word) for word in what):
            numbers = sorted(int(word.removesuffix(" x")) for word in what)
            what = [f"{numbers[0]} x to {numbers[-1]} x"]
        yield (place if where else "") + ("tables" if tables else ", ".join(what))


class Circuit:
    """A design by its nodes: the driver of each, and the width of each signal."""

    def __init__(self, design: vhdl.Design) -> None:
        self.design = design
        self.widths = {signal.name: signal.width for signal in design.signals}
        self.drivers = {driver.to: driver for driver in design.drivers if driver.kind != "output"}
        self.outputs = {driver.to: driver.exprs[0] for driver in design.drivers if driver.kind == "output"}
        # What the sums of half adders read: their carries read the same.
        chains = (driver.exprs[0] for driver in self.drivers.values() if driver.kind == "assign" and driver.exprs[0][:2] == ("chain", "xor"))
        self.halves = {str(chain[2]) for chain in chains}

    def expr(self, name: str) -> tuple:
        """What drives the node of a name."""
        return self.drivers[read_place(name)[0]].exprs[0]

    def kind(self, name: str) -> str:
        return self.drivers[read_place(name)[0]].kind

    def is_input(self, name: str) -> bool:
        """Whether a node is an input, or one that a filter's delay line holds."""
        return self.kind(name) == "register" or self.expr(name)[0] == "port"

    def bits(self, expr: tuple) -> list[Bit | None]:
        """The bits of a concatenation, the lowest first; none of a constant."""
        match expr:
            case ("chain", "&", pieces):
                return [bit for piece in reversed(pieces) for bit in self.bits(piece)]
            case ("name", name):
                return [(read_place(name)[0], at) for at in range(self.widths[name])]
            case ("part", name, high, low):
                return [(read_place(name)[0], at) for at in range(low, high + 1)]
            case ("bits", text):
                return [None] * len(text)
            case ("not", inner):
                return self.bits(inner)
        return [None]

    def row(self, name: str) -> list[Bit | None]:
        """The bits that a word puts together, or else its own."""
        expr = self.expr(name)
        if expr[0] in ("chain", "part") and (expr[0] == "part" or expr[1] == "&"):
            return self.bits(expr)
        return [(read_place(name)[0], at) for at in range(self.widths[name])]


# The heaps: every cell before a sum has the column of that sum to which it belongs.


def operands_of(expr: tuple) -> Iterator[tuple]:
    """The bits that a gate reads."""
    match expr:
        case ("chain", _, operands):
            for operand in operands:
                yield from operands_of(operand)
        case ("not", operand):
            yield from operands_of(operand)
        case _:
            yield expr


def spread(circuit: Circuit, columns: dict[Bit, int], exprs: Iterable[tuple], column: int) -> None:
    """Puts the bits that are read into a column."""
    for expr in exprs:
        for bit in circuit.bits(expr):
            if bit:
                columns[bit] = column


def table_part(circuit: Circuit, columns: dict[Bit, int], node: str, lowest: int) -> Part:
    """A table over an input's digit, or a counter of a column's bits, whose column is then spread."""
    address = read_place(circuit.drivers[node].exprs[0][1])[0]
    expr = circuit.expr(address)
    if expr[0] == "chain":
        spread(circuit, columns, [expr], lowest)
        return Part("column", lowest, "counter")
    source = expr[1] if expr[0] in ("part", "name") else address
    high, low = expr[2:] if expr[0] == "part" else (circuit.widths[source] - 1, 0)
    has_taps = any(driver.kind == "register" and not read_place(driver.to)[1] for driver in circuit.drivers.values())
    return Part("tap" if has_taps else "", tap_of(circuit, source), f"table of {slice_text(high, low, port_of(circuit, source))}")


def slice_text(high: int, low: int, name: str = "x") -> str:
    return f"{name}({high}..{low})" if high > low else f"{name}({high})"


def port_of(circuit: Circuit, source: str) -> str:
    """The input that a signal is, `x` where it is one that a delay line holds."""
    expr = circuit.expr(source)
    return expr[1] if expr[0] == "port" else "x"


def tap_of(circuit: Circuit, name: str) -> int:
    """How many registers of a delay line a node is behind the input."""
    count = 0
    while circuit.kind(name) == "register":
        name, count = circuit.expr(name)[1], count + 1
    return count


def heap_of(circuit: Circuit, total: vhdl.Driver, drivers: list[vhdl.Driver], step: int) -> tuple[dict[Bit, int], dict[str, Part]]:
    """The column of each bit before a sum, and the parts of the cells."""
    columns: dict[Bit, int] = {}
    parts: dict[str, Part] = {}
    for operand in total.exprs[0][2]:
        spread_row(columns, circuit.row(operand[1]))
    for driver in reversed(drivers):
        known = [column - at for at in range(circuit.widths[driver.to]) if (column := columns.get((driver.to, at))) is not None]
        if not known:
            continue
        if driver.kind == "table":
            parts[driver.to] = table_part(circuit, columns, driver.to, min(known))
        elif gate := gate_of(circuit, driver.exprs[0]):
            column = min(known) - (gate == "carry")
            if gate != PRODUCT:
                spread(circuit, columns, operands_of(driver.exprs[0]), column)
            parts[driver.to] = Part("column", column, gate, step)
    return columns, parts


def spread_row(columns: dict[Bit, int], row: list[Bit | None]) -> None:
    """Gives each bit of a row its column."""
    columns |= {bit: column for column, bit in enumerate(row) if bit}


def heaps_of(circuit: Circuit) -> Iterator[tuple[dict[Bit, int], set[str]]]:
    """For each heap the column of each bit, and the cells that compress it."""
    for total, before, step in totals_of(circuit):
        columns, parts = heap_of(circuit, total, before, step)
        yield columns, {node for node, part in parts.items() if part.what in ("sum", "carry", "counter")}


def totals_of(circuit: Circuit) -> Iterator[tuple[vhdl.Driver, list[vhdl.Driver], int]]:
    """The sum at the end of each heap, with the cells since the heap before, and its step where there are several."""
    before: list[vhdl.Driver] = []
    found = []
    for driver in circuit.design.drivers:
        if driver.kind == "assign" and driver.exprs[0][:2] == ("chain", "+"):
            found.append((driver, before))
            before = []
        elif driver.kind in ("assign", "table"):
            before.append(driver)
    for step, (total, cells) in enumerate(found, 1):
        yield total, cells, step if len(found) > 1 else 0


def gate_of(circuit: Circuit, expr: tuple) -> str | None:
    """What a gate of a heap does, none of what is no gate."""
    match expr:
        case ("chain", "xor", _):
            return "sum"
        case ("chain", "or", _):
            return "carry"
        case ("not", ("chain", "and", operands)) | ("chain", "and", operands):
            is_product = all(is_input_bit(circuit, operand) for operand in operands) and str(operands) not in circuit.halves
            return PRODUCT if is_product else "carry"
    return None


def is_input_bit(circuit: Circuit, operand: tuple) -> bool:
    """Whether a gate reads a bit of an input, or of a word that is no table's."""
    match operand:
        case ("part", name, _, _):
            return circuit.kind(name) != "table"
        case ("name", name):
            return circuit.is_input(name)
    return False


def heap_parts(circuit: Circuit) -> Iterator[tuple[str, Part]]:
    """The parts of tables, heaps and their last sums."""
    for total, before, step in totals_of(circuit):
        yield from heap_of(circuit, total, before, step)[1].items()
        yield total.to, Part("", 0, "last sum, of all columns", step)
    if not any(driver.exprs[0][:2] == ("chain", "+") for driver in circuit.design.drivers):
        for driver in circuit.design.drivers:
            if driver.kind == "table":
                yield driver.to, table_part(circuit, {}, driver.to, 0)


# The digits of quotients and roots.


def digit_parts(circuit: Circuit) -> Iterator[tuple[str, Part]]:
    """For each digit its subtraction, the test of its sign and the choice of what remains."""
    result = next(expr for port, expr in circuit.outputs.items() if port in ("q", "y"))
    digits = {bit[0]: at for at, bit in enumerate(circuit.row(without_sign(circuit, result[1]))) if bit}
    for driver in circuit.design.drivers:
        if driver.kind == "choice" and (on := read_place(driver.exprs[0][1])[0]) in digits:
            yield driver.to, Part("digit", digits[on], "select")
        elif driver.to in digits and driver.exprs[0][0] == "not":
            yield driver.to, Part("digit", digits[driver.to], "sign")
            yield read_place(driver.exprs[0][1][1])[0], Part("digit", digits[driver.to], "subtract")


def without_sign(circuit: Circuit, name: str) -> str:
    """The word that a signed result has before it gets its sign, or else the result."""
    driver = circuit.drivers[read_place(name)[0]]
    return driver.exprs[2][1] if driver.kind == "choice" else name


def sign_parts(circuit: Circuit) -> Iterator[tuple[str, Part]]:
    """What takes the signs off the inputs of a signed quotient, and puts them to its results: a negation and a choice each."""
    ports = {read_place(expr[1])[0]: port for port, expr in circuit.outputs.items()}
    for driver in circuit.design.drivers:
        if driver.kind != "choice":
            continue
        sign, negated, plain = (read_place(expr[1])[0] for expr in driver.exprs)
        source = circuit.expr(plain)
        port = source[1] if source[0] == "port" else ports.get(driver.to)
        if port and circuit.expr(negated)[:2] == ("chain", "-"):
            yield negated, Part("", 0, f"negate {port}")
            yield driver.to, Part("", 0, f"{'absolute value' if source[0] == 'port' else 'sign'} of {port}")
            if circuit.expr(sign)[:2] == ("chain", "xor"):
                yield sign, Part("", 0, f"whether {port} is below 0")


# The graphs of adders.


def graph_parts(circuit: Circuit, taps: list[int]) -> Iterator[tuple[str, Part]]:
    """The adders by what they make of the input, and the sums of taps, the first tap last. Some last tap is a product without a sum."""
    multiples, sums = Multiples(circuit.design), []
    for driver in filter(is_sum, circuit.design.drivers):
        if taps and multiples.reads_other(driver):
            sums.append(driver.to)
        else:
            yield driver.to, Part("", 0, f"{multiples.factors[driver.to]} x")
    for name, at in zip(reversed(sums), (at for at, tap in enumerate(taps) if tap)):
        yield name, Part("tap", at, "sum")


def chain_parts(circuit: Circuit) -> Iterator[tuple[str, Part]]:
    """The tables of a division by a constant, by the digit of x that each takes."""
    for driver in circuit.design.drivers:
        if driver.kind == "table":
            address = circuit.bits(circuit.expr(driver.exprs[0][1]))
            digit = [at for node, at in filter(None, address) if circuit.is_input(node)]
            yield driver.to, Part("", 0, f"table of {slice_text(max(digit, default=0), min(digit, default=0))}")


# The step that brings an output into its range.


def range_parts(circuit: Circuit) -> Iterator[tuple[str, Part]]:
    """The test of the bits that are dropped, the end that a number beyond it becomes, and the choice; none of a wider output."""
    chosen = read_place(circuit.outputs["y"][1])[0]
    if circuit.kind(chosen) != "choice":
        return
    test, end, _ = (read_place(expr[1])[0] for expr in circuit.drivers[chosen].exprs)
    yield chosen, Part("", 0, "saturate")
    yield test, Part("", 0, RANGE_TEST)
    if circuit.kind(end) == "choice":
        yield end, Part("", 0, "least or greatest")


def parts_of(example: Example) -> dict[str, Part]:
    """What each node does, of those of which it is known: of a circuit whose sums are cut those that bring an output into its range."""
    circuit = Circuit(example.design)
    found = kind_parts(circuit, example.spec) if example.has_whole_sums else {}
    saturates = "out_width" in example.spec and example.spec.get("overflow") != "wrap"
    return found | dict(range_parts(circuit)) if saturates else found


def kind_parts(circuit: Circuit, spec: dict) -> dict[str, Part]:
    """What the nodes of a kind do."""
    kind = spec["kind"]
    match kind:
        case "scale" | "fir" | "multiply" | "poly" | "sop":
            return dict(heap_parts(circuit))
        case "divide" if spec.get("signed", False):
            return dict(digit_parts(circuit)) | dict(sign_parts(circuit))
        case "divide" | "root":
            return dict(digit_parts(circuit))
        case "mcm" | "tfir":
            return dict(graph_parts(circuit, spec.get("taps", [])))
        case "constdiv":
            return dict(chain_parts(circuit))
    raise KeyError(kind)
