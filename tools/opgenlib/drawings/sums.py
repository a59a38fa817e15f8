"""The bit heap of a sum of products: its bits by columns, each term in a colour, and the rows that compression leaves."""
from collections import Counter
from collections.abc import Iterator

from opgenlib import vhdl
from opgenlib.drawings.example import Example, NotDrawn
from opgenlib.drawings.parts import Bit, Circuit, heap_of, operands_of, read_place, totals_of
from opgenlib.svg import LETTER, Picture
from opgenlib.terms import Term, terms_of

COLOURS = ("steelblue", "darkorange", "seagreen", "crimson", "mediumpurple", "goldenrod", "hotpink", "saddlebrown", "darkturquoise", "olive")
STEP, LEFT, TOP = 22, 100, 62
# The most columns that are drawn bit by bit, and the height of the bars of others.
MOST_DOTS, HIGH = 40, 160
ONE = -1


def word_bits(circuit: Circuit, expr: tuple) -> Iterator[Bit | None]:
    """The bits of a word that puts them together, the lowest first; none of a 1, and constants 0 as an empty name."""
    match expr:
        case ("chain", "&", pieces):
            for piece in reversed(pieces):
                yield from word_bits(circuit, piece)
        case ("bits", text):
            yield from (None if letter == "1" else ("", 0) for letter in reversed(text))
        case _:
            yield from circuit.bits(expr)


def row_bits(circuit: Circuit, name: str) -> Iterator[Bit | None]:
    """The bits of a row of the last sum."""
    expr = circuit.expr(name)
    if expr[0] == "chain" and expr[1] == "&":
        return word_bits(circuit, expr)
    return iter(circuit.row(name))


def read_by(circuit: Circuit, node: str) -> Iterator[Bit | None]:
    """The bits that an adder's sum or a counter reads."""
    driver = circuit.drivers[node]
    exprs = operands_of(driver.exprs[0])
    if driver.kind == "table":
        exprs = iter([circuit.expr(read_place(driver.exprs[0][1])[0])])
    for expr in exprs:
        yield from word_bits(circuit, expr)


def bits_of(circuit: Circuit) -> tuple[list[tuple[int, Bit | None]], list[list[Bit | None]]]:
    """The bits that the compression begins with, each with its column and none of a 1, and the rows that it leaves."""
    heaps = list(totals_of(circuit))
    if not heaps:
        raise NotDrawn("this sum has no heap: one table is enough")
    total, before, step = heaps[-1]
    parts = heap_of(circuit, total, before, step)[1]
    gates = {node: part for node, part in parts.items() if part.what in ("sum", "carry", "counter")}
    rows = [list(row_bits(circuit, operand[1])) for operand in total.exprs[0][2]]
    found = [(part.at, bit) for node, part in gates.items() if part.what != "carry" for bit in read_by(circuit, node)]
    found += [(column, bit) for row in rows for column, bit in enumerate(row) if bit is None or bit[0]]
    return [(column, bit) for column, bit in found if bit is None or bit[0] not in gates], rows


class Owners:
    """Which term a bit belongs to: by the inputs that it is made of, and where several terms have them by how often they came."""

    def __init__(self, circuit: Circuit, terms: list[Term]) -> None:
        self.circuit, self.terms = circuit, terms
        self.seen: Counter = Counter()
        self.known: dict[str, int] = {}

    def port(self, name: str) -> str:
        """The input of which a signal has the bits."""
        expr = self.circuit.expr(name)
        while expr[0] in ("part", "name"):
            expr = self.circuit.expr(expr[1])
        return expr[1]

    def candidates(self, ports: list[str], is_table: bool) -> list[int]:
        """The terms of these inputs: of one bit alone a square first."""
        pair = sorted(ports * (2 if len(ports) == 1 and not is_table else 1))
        found = [at for at, term in enumerate(self.terms) if sorted(port.name for port in term.inputs) == pair]
        return found or [at for at, term in enumerate(self.terms) if [port.name for port in term.inputs] == ports]

    def owner(self, ports: list[str], is_table: bool, key: object) -> int:
        """The term of bits that are made in this way, one after the other where several are."""
        found = self.candidates(ports, is_table)
        self.seen[is_table, str(key)] += 1
        return found[min(self.seen[is_table, str(key)], len(found)) - 1] if found else ONE

    def of_node(self, name: str) -> int:
        driver = self.circuit.drivers[name]
        if driver.kind == "table":
            address = read_place(driver.exprs[0][1])[0]
            return self.owner([self.port(address)], True, self.circuit.expr(address))
        expr = driver.exprs[0]
        inner = expr[1] if expr[0] == "not" else expr
        operands = inner[2] if inner[0] == "chain" else [inner]
        return self.owner([self.port(operand[1]) for operand in operands], False, [self.circuit.bits(operand) for operand in operands])

    def of_bit(self, bit: Bit) -> int:
        if self.circuit.is_input(bit[0]):
            return self.owner([self.port(bit[0])], False, [[bit]])
        return self.known[bit[0]]

    def of(self, found: list[tuple[int, Bit | None]]) -> list[tuple[int, int]]:
        """The column and the term of each bit; of a 1 none."""
        nodes = {bit[0] for _, bit in found if bit and not self.circuit.is_input(bit[0])}
        for name in sorted(nodes, key=lambda name: int(name[1:])):
            self.known[name] = self.of_node(name)
        return [(column, self.of_bit(bit) if bit else ONE) for column, bit in found]


def columns_of(owned: list[tuple[int, int]], count: int) -> list[list[int]]:
    """The terms of the bits of each column, in their order."""
    columns = [[] for _ in range(count)]
    for column, term in owned:
        if column < count:
            columns[column].append(term)
    return [sorted(bits, key=lambda term: (term == ONE, term)) for bits in columns]


def colour(term: int) -> str:
    return COLOURS[term % len(COLOURS)]


def draw_dots(picture: Picture, columns: list[list[int]], top: float) -> None:
    """The bits of each column, the highest column on the left; a 1 of the constant as a digit."""
    for column, terms in enumerate(columns):
        x = LEFT + (len(columns) - 1 - column) * STEP
        for row, term in enumerate(terms):
            if term == ONE:
                picture.text(x, top + row * STEP + 4, "1", "middle")
            else:
                picture.circle(x, top + row * STEP, 6, colour(term))


def draw_bars(picture: Picture, columns: list[list[int]], top: float) -> None:
    """The same as bars of as many parts as a column has terms."""
    tallest = max(map(len, columns))
    for column, terms in enumerate(columns):
        x, y = LEFT + (len(columns) - 1 - column) * STEP - STEP / 2, top + HIGH
        for term, count in Counter(terms).items():
            y -= HIGH * count / tallest
            picture.rect(x, y, STEP - 3, HIGH * count / tallest, "#dddddd" if term == ONE else colour(term))
        picture.text(x + STEP / 2 - 1.5, y - 4, str(len(terms) or ""), "middle", 10)


def draw_heads(picture: Picture, count: int, lowest: int) -> None:
    picture.text(8, 20, "column")
    picture.text(8, 40, "weight 2^")
    for column in range(count):
        x = LEFT + (count - 1 - column) * STEP
        picture.text(x, 20, str(column), "middle", 10)
        picture.text(x, 40, str(lowest + column), "middle", 10)


def draw_legend(picture: Picture, terms: list[Term], counts: Counter, top: float) -> None:
    """The colour of each term that has bits, and how many."""
    for row, at in enumerate(at for at in range(len(terms)) if counts[at]):
        picture.circle(16, top + row * 18, 6, colour(at))
        sign = "- " if terms[at].number < 0 else ""
        picture.text(30, top + row * 18 + 4, f"{sign}{terms[at].words}: {counts[at]} bit{'' if counts[at] == 1 else 's'}")


def lowest_place(example: Example, width: int) -> int:
    """The exponent of the lowest column: the output's highest bit is that of the sum, unless the sum is cut to a chosen width."""
    circuit, y = Circuit(example.design), example.report.outputs[0]
    if "out_width" in example.spec:
        return y.lsb - guard_of(circuit, width)
    return y.lsb + y.width - width


def guard_of(circuit: Circuit, width: int) -> int:
    """How many columns of the sum are below the output: the lowest bit that is read of it."""
    total = [driver.to for driver in circuit.drivers.values() if driver.kind == "assign" and driver.exprs[0][:2] == ("chain", "+")][-1]
    places = [at for driver in circuit.design.drivers for expr in driver.exprs for node, at in filter(None, circuit.bits(expr)) if node == total]
    return min(places, default=0) if places else width


def sum_heap(example: Example) -> Picture:
    circuit, terms = Circuit(example.whole_design), terms_of(example.spec)
    found, rows = bits_of(circuit)
    count = max(map(len, rows))
    owned = Owners(circuit, terms).of(found)
    columns, counts = columns_of(owned, count), Counter(term for _, term in owned)
    is_dotted = count <= MOST_DOTS
    high = max(map(len, columns)) * STEP if is_dotted else HIGH + 20
    below = TOP + high + (3 * STEP if is_dotted else 8)
    shown = sum(1 for at in range(len(terms)) if counts[at])
    words = f"{example.caption}: {len(owned) - counts[ONE]} bits of {shown} terms" + (" and a constant" if counts[ONE] else "")
    picture = Picture(max(LEFT + count * STEP + 12, LETTER * len(words) + 16), below + 18 * shown + 26)
    draw_heads(picture, count, lowest_place(example, count))
    if is_dotted:
        picture.text(8, TOP + 4, "before")
        draw_dots(picture, columns, TOP)
        picture.text(8, TOP + high + STEP / 2 + 4, "after")
        for row, bits in enumerate(rows):
            draw_row(picture, bits, count, TOP + high + STEP / 2 + row * STEP)
    else:
        draw_bars(picture, columns, TOP + 12)
    draw_legend(picture, terms, counts, below + 10)
    picture.text(8, below + 18 * shown + 14, words)
    return picture


def draw_row(picture: Picture, bits: list[Bit | None], count: int, y: float) -> None:
    """A row that compression leaves: bits, and the digits of constants."""
    for column, bit in enumerate(bits):
        x = LEFT + (count - 1 - column) * STEP
        if bit is None or not bit[0]:
            picture.text(x, y + 4, "1" if bit is None else "0", "middle")
        else:
            picture.circle(x, y, 6, "#dddddd")
