"""Explains the faults of VHDL: which piece, token, port, signal or statement is meant, and what to write instead."""
import re
from collections import deque
from collections.abc import Callable, Iterable, Iterator, Sequence
from pathlib import Path

from .. import report, schema
from ..asking import NoPorts
from ..specification import NotToml, load
from ..vhdl import END, OPERATORS, Design, Driver, NoToken, NotRead, Port, Reader, Token, Use, entity_of, width_in
from .again import Runner, ports_by
from .limits import TooLong

MANUAL = f'{schema.shown("docs/MANUAL.md")}, "Write VHDL for simulate"'
MOST_BYTES = 8 << 20  # beyond, a text takes this reader too long
MOST_WRITTEN = 30
# What Verilog begins with, behind comments and directives, within the first bytes of a file.
VERILOG = re.compile(rb"(?:\s+|//[^\n]*\n|/\*.*?\*/|`[^\n]*\n)*(?:module|package|interface)\s+\w+\s*[(#;]", re.DOTALL)
MOST_HEAD = 1 << 16
# Names of a way, or widths of operands, that are shown.
MOST_LISTED = 8

# What to write in place of what the subset does not have, by its word.
INSTEAD = {
    "resize": '"0" & s for an unsigned s; s(3 downto 3) & s for a signed one',
    "shift_left": 's(2 downto 0) & "0"',
    "shift_right": '"0" & s(3 downto 1)',
    "to_unsigned": 'the bits, as "0101"',
    "to_integer": "nothing: all words are bits",
    "conv_integer": "nothing: all words are bits",
    "signed": "unsigned; the top bit is the sign",
    "integer": "unsigned(K downto 0)",
    "natural": "unsigned(K downto 0)",
    "boolean": "unsigned(0 downto 0)",
    "generic": "numbers in place of generics",
    "constant": "a signal that bits drive",
    "variable": "a signal",
    "component": "one entity alone",
    "type": "unsigned(K downto 0)",
    "subtype": "unsigned(K downto 0)",
    "attribute": "nothing",
    "function": "a signal for each result",
    "if": "n <= a when c = \"1\" else b; outside of the process, and r <= n; in it",
    "elsif": "n <= a when c = \"1\" else b; outside of the process, and r <= n; in it",
    "else": "n <= a when c = \"1\" else b; outside of the process, and r <= n; in it",
    "case": "with s select n <= .. when .., .. when others; outside of the process",
    "for": "a statement for each",
    "process": "one process alone, of registers: process (clk) begin if rising_edge(clk) then ..",
    "assert": "nothing",
    "nand": "not (a and b)",
    "nor": "not (a or b)",
    "xnor": "not (a xor b)",
    "sll": 's(2 downto 0) & "0"',
    "srl": '"0" & s(3 downto 1)',
    "mod": "a slice, if the divisor is a power of two",
    "rem": "a slice, if the divisor is a power of two",
    "inout": "in or out",
    "buffer": "out, and a signal that is read and drives it",
}
# What to write in place of what begins no token, by how it begins.
NO_TOKEN: list[tuple[str, str]] = [
    (r"'[01XUZxuz\-]'", 'bits are written between double quotes, as "1"'),
    (r"'event", "write rising_edge(clk)"),
    (r"'", "attributes and characters are not in the subset"),
    (r"/=|<|>", "write d <= s xor t; and look at the bits of d, or a table"),
    (r"\*|/", "a product or quotient is an operator of its own"),
    (r'"[01]{97,}"', "bit strings have at most 96 bits"),
    (r'""', "a bit string has a bit at least"),
    (r'"[01][01_]*"', "write the bits without _"),
    (r'"', 'only "0" and "1" are between double quotes'),
    (r"[A-Za-z]\w*__", "no word has two underscores in a row"),
    (r"[A-Za-z]\w*_(?!\w)", "no word ends with an underscore"),
    (r"[A-Za-z]\w{64}", "words have at most 64 letters"),
    (r"[0-9]{10}", "numbers have at most 9 digits"),
    (r"[0-9]+['#.]|[0-9]+\w", "only decimal numbers, without letters or _, are in the subset"),
    (r"[^\x00-\x7f]", "letters beyond ASCII are taken in comments alone"),
    (r"[\[\]{}|@#$%!?^~\\`]", "this mark is not in the subset"),
]


def short(text: str) -> str:
    text = " ".join(text.split())
    return text if len(text) <= MOST_WRITTEN else f"{text[:MOST_WRITTEN]}.."


def listed(items: Iterable, mark: str = ", ") -> str:
    """Items with a mark between them, of many the first and the last ones."""
    words = [short(str(item)) for item in items]
    if len(words) > MOST_LISTED:
        half = MOST_LISTED // 2
        words = [*words[:half], f"({len(words) - 2 * half:,} more)", *words[-half:]]
    return mark.join(words)


class Explainer:
    """The explanations of one text's faults."""

    def __init__(self, file: str, text: str) -> None:
        self.file, self.text = file, text

    def at(self, offset: int) -> str:
        """The file with the line and column of an offset."""
        line = self.text.count("\n", 0, offset) + 1
        return f"{self.file}:{line}:{offset - self.text.rfind(chr(10), 0, offset)}"

    def lexical(self, offset: int) -> Iterator[str]:
        rest = self.text[offset : offset + 200]
        found = next(((pattern, advice) for pattern, advice in NO_TOKEN if re.match(pattern, rest)), None)
        written = re.match(r"\w+|'\w'|'\w+|\"[^\"\n]*\"?|\S{1,2}|", rest)[0] if rest else "the end"
        advice = f"; {found[1]}" if found else ", as no word or mark of it starts here"
        if rest.startswith('"') and self.text[offset - 1 : offset] in ("x", "X", "o", "O"):
            advice = '; write the bits one by one, as "0000"'
        yield f"{self.at(offset)}: `{short(written)}` is not in the subset{advice} ({MANUAL})"

    def syntax(self, piece: int) -> Iterator[str]:
        reader = self.reader()
        if reader is None:
            return
        try:
            reader.design()
        except NotRead as fault:
            if reader.piece_of(fault.number) == piece:
                yield from self.misfit(reader, fault)
                return
        yield from self.whole_piece(reader, piece)

    def reader(self) -> Reader | None:
        try:
            return Reader(self.text)
        except NoToken:
            return None

    def whole_piece(self, reader: Reader, piece: int) -> Iterator[str]:
        """Where a piece begins, of which no token is known to be wrong."""
        tokens, number = reader.tokens, 1
        for token in tokens:
            if number == piece:
                end = self.text.find(";", token.at)
                yield f"{self.at(token.at)}: `{short(self.text[token.at:end + 1])}` does not fit its place ({MANUAL})"
                return
            number += token.written == ";"

    def misfit(self, reader: Reader, fault: NotRead) -> Iterator[str]:
        """A token that does not fit, and what to write."""
        if fault.number >= len(reader.tokens):
            yield f"{self.at(len(self.text.rstrip()))}: the text ends here; expected {fault.expected}"
            return
        misfit = Misfit(reader, fault)
        for token, advice in misfit.advices():
            yield f"{self.at(token.at)}: `{short(token.written)}` {advice} ({MANUAL})"
            return
        yield f"{self.at(fault.found.at)}: found `{short(fault.found.written)}`, expected {fault.expected} ({MANUAL})"

    def too_large(self) -> Iterator[str]:
        signals = len(re.findall(r"(?i)\bsignal\b", re.sub(r"--[^\n]*", "", self.text)))
        yield f"{self.file}: more than 65,536 signals or 64 ports; found {signals} signals"
        yield "  split the design"

    def unsound(self, rule: int, item: int) -> Iterator[str]:
        reader = self.reader()
        if reader is None:
            return
        try:
            design = reader.design()
        except NotRead:
            return
        yield from Unsound(self, design).explain(rule, item)

    def ports(self, wanted: Sequence[report.Port]) -> Iterator[str]:
        """Which port is not that of a specification."""
        yield self.port_fault(entity_of(self.text)[1], wanted)
        yield f"  expected, in this order: {', '.join(map(declared, wanted))}"

    def port_fault(self, found: list[Port], wanted: Sequence[report.Port]) -> str:
        """The first port that is too much, missing, of another sort, or out of its order."""
        names = [port.name for port in found]
        known = {port.name: port for port in wanted}
        for port in found:
            if port.name not in known:
                return f"{self.at(port.at)}: `{port.name}` is no port of the specification; rename it or take it out"
            if declared(port) != declared(known[port.name]):
                return f"{self.at(port.at)}: found {declared(port)}; expected {declared(known[port.name])}"
        if missing := [port for port in wanted if port.name not in names]:
            return f"{self.file}: there is no port {declared(missing[0])}"
        order = ", ".join(names)
        return f"{self.file}: the order of the ports is {order}; expected {', '.join(known)}"


class Misfit:
    """A token that does not fit its place, with those around it, and the advices that may be given: each is the token that
    is meant and what to say of it."""

    def __init__(self, reader: Reader, fault: NotRead) -> None:
        self.reader, self.tokens, self.number = reader, reader.tokens, fault.number
        self.found, self.expected = fault.found, fault.expected

    def token(self, places: int) -> Token:
        """The token so many places behind the one that does not fit."""
        number = self.number + places
        return self.tokens[number] if 0 <= number < len(self.tokens) else END

    def advices(self) -> Iterator[tuple[Token, str]]:
        """The advices, the plainest first."""
        yield from self.of_calls()
        yield from self.of_operands()
        yield from self.of_declarations()
        yield from self.of_statements()

    def of_calls(self) -> Iterator[tuple[Token, str]]:
        """`resize(s, 8)` and `s(3)` are read as slices."""
        declared = {token.text for before, token in zip(self.tokens, self.tokens[1:]) if before.text == "signal"}
        called = self.token(-2)
        if self.token(-1).text == "(" and self.expected.startswith("the number of a bit") and called.text[:1].isalpha():
            if called.text not in declared:
                instead = f"; write {INSTEAD[called.text]}" if called.text in INSTEAD else ""
                yield called, f"is not in the subset{instead}"
            elif not self.found.text.isdigit():
                yield self.found, "is no number: slices are between numbers"
            else:
                yield self.found, f"is no bit: {self.expected} is expected"
        if self.expected == "`downto`" and called.text == "(":
            bit, name = self.token(-1), self.token(-3)
            if self.found.text == ")":
                yield name, f"is read bit by bit as a slice: write {name.written}({bit.written} downto {bit.written})"
            if self.found.text == "to":
                yield self.found, "is not in the subset; write downto, the higher number first"

    def of_operands(self) -> Iterator[tuple[Token, str]]:
        if self.found.text.startswith('"') and self.token(-1).text in ("x", "b", "o"):
            yield self.token(-1), 'in front of bits is not in the subset; write the bits one by one, as "0000"'
        if self.found.text.isdigit() and self.expected.startswith("a signal, bits"):
            yield self.found, 'is no operand; write it in bits of the same width, as "0001" for 1 of four bits'
        if self.found.text in OPERATORS and self.expected == "`;`":
            yield self.found, "follows another operator; put parentheses round one of them"
        if self.found.text in ("=", "<=") and self.expected in ("`;`", "`)`"):
            yield self.found, "is no comparison here; write d <= s xor t; and look at the bits of d, or a table"

    def of_declarations(self) -> Iterator[tuple[Token, str]]:
        if self.found.text == "std_logic" and self.expected == "`std_logic_vector`":
            yield self.found, "is for clk alone; write std_logic_vector(0 downto 0)"
        if self.found.text in ("std_logic_vector", "std_logic", "signed") and self.expected == "`unsigned`":
            yield self.found, "is no type of a signal here; write unsigned(K downto 0)"
        if self.found.text == "," and self.expected == "`:`":
            yield self.found, "is not in the subset; write a declaration for each name"
        if self.found.text == ")" and self.expected == "a name" and self.token(-1).text == ";":
            yield self.token(-1), "is too much: the last port has none before `)`"

    def of_statements(self) -> Iterator[tuple[Token, str]]:
        if self.found.text == ":" and self.expected == "`<=`" and self.token(1).text in ("process", "with"):
            yield self.token(-1), "is a label, which is not in the subset; leave it out"
        if self.found.text == "when" and self.expected == "`;`":
            yield self.found, "is the second choice of one statement; write a signal for each choice"
        before = self.token(-1)
        if self.expected == "`;`" and "\n" in self.reader.text[before.at : self.found.at]:
            yield before, "is the last of its line; expected `;` behind it"
        if self.found.text in INSTEAD:
            yield self.found, f"is not in the subset here; write {INSTEAD[self.found.text]}"
        if self.expected == "a name" and self.found.text[:1].isalpha():
            yield self.found, "is no name: it is a word of VHDL"


class Unsound:
    """The explanations of rules that fail at an item: a port, a signal or a statement."""

    def __init__(self, explainer: Explainer, design: Design) -> None:
        self.at, self.design = explainer.at, design
        self.ports = {port.name: port for port in reversed(design.ports)}
        self.signals = {signal.name: signal for signal in reversed(design.signals)}
        self.port_widths = {name: port.width for name, port in self.ports.items()}
        self.signal_widths = {name: signal.width for name, signal in self.signals.items()}

    def explain(self, rule: int, item: int) -> Iterator[str]:
        if item == 0:
            yield from self.names_disagree()
            return
        ports, signals = len(self.design.ports), len(self.design.signals)
        items = [*self.design.ports, *self.design.signals, *self.design.drivers]
        rules: dict[int, Callable] = {
            1: self.undeclared,
            2: self.declared_twice,
            3: self.widths if item > ports + signals else self.initial_width,
            4: self.driven_twice,
            5: self.undriven,
            6: self.cyclic,
            7: self.output_read,
            8: self.no_initial,
            9: self.address_twice,
            10: self.bad_enable,
        }
        yield from rules[rule](items[item - 1])

    def names_disagree(self) -> Iterator[str]:
        for use in self.design.other_names:
            agree = "the names of entity and architecture have to agree"
            yield f"{self.at(use.at)}: `{use.name}` is not the name at the head; {agree}"
            return
        if self.design.enable is not None:
            enable = f"the enable `{self.design.enable}` is no port"
            yield f"{self.at(self.design.enable_at)}: {enable}; write an input port of one bit"

    def undeclared(self, driver: Driver) -> Iterator[str]:
        target = Use(driver.to, driver.kind == "output", driver.at)
        for use in (target, *driver.uses):
            declared, others = (self.ports, self.signals) if use.is_port else (self.signals, self.ports)
            if use.name in declared:
                continue
            what = "port" if use.is_port else "signal"
            other = self.other_sort(use, use is target, use.name in others)
            yield f"{self.at(use.at)}: there is no {what} `{use.name}`{other}"
            return

    def other_sort(self, use: Use, is_target: bool, is_other: bool) -> str:
        """What to write where a name is of the other sort."""
        if not is_other:
            return "; declare it"
        if use.is_port:
            return f", but a signal; write it without {'std_logic_vector' if is_target else 'unsigned'}"
        if is_target:
            return f", but a port; write {use.name} <= std_logic_vector(..);"
        return f", but a port; write unsigned({use.name})"

    def declared_twice(self, declared) -> Iterator[str]:
        if declared.name == "clk":
            yield f"{self.at(declared.at)}: `clk` is the clock's name; rename it"
            return
        first = self.ports.get(declared.name) or self.signals[declared.name]
        line = self.at(first.at).split(":")[-2]
        yield f"{self.at(declared.at)}: `{declared.name}` is declared twice, first in line {line}; rename one"

    def initial_width(self, declared) -> Iterator[str]:
        if not getattr(declared, "initial", None):
            yield f"{self.at(declared.at)}: `{declared.name}` has {declared.width} bits; expected 1 to 96"
            return
        found = len(declared.initial)
        bits = f"`{declared.name}` has {declared.width} bits"
        yield f"{self.at(declared.at)}: {bits}, and its initial value {found}; write as many"

    def width(self, expr: tuple) -> int | None:
        return width_in(expr, self.signal_widths, self.port_widths)

    def mismatch(self, expr: tuple) -> str:
        """Which operands of an expression disagree, or which slice is outside."""
        match expr:
            case ("part", name, high, low) if self.width(expr) is None:
                return f"{name}({high} downto {low}) is outside of {name}, which has {self.signals[name].width} bits"
            case ("not", operand):
                return self.mismatch(operand)
            case ("chain", operator, operands):
                if inner := next(filter(None, map(self.mismatch, operands)), ""):
                    return inner
                widths = [self.width(operand) for operand in operands]
                if operator != "&" and len(set(widths)) > 1:
                    return f"the operands of `{operator}` have {listed(widths)} bits; expected one width"
        return ""

    def widths(self, driver: Driver) -> Iterator[str]:
        for expr in driver.exprs:
            if said := self.mismatch(expr):
                yield f"{self.at(driver.at)}: {said}"
                return
        declared = self.ports if driver.kind == "output" else self.signals
        width = declared[driver.to].width
        if driver.kind == "table":
            yield from self.table_widths(driver, width)
            return
        if driver.kind == "choice" and self.width(driver.exprs[0]) != 1:
            yield f"{self.at(driver.at)}: the condition has {self.width(driver.exprs[0])} bits; expected one"
            return
        for expr in driver.exprs[1:] if driver.kind == "choice" else driver.exprs:
            if (found := self.width(expr)) != width:
                bits = f"`{driver.to}` has {width} bits, and what drives it {found}"
                yield f"{self.at(driver.at)}: {bits}; make them one width"
                return

    def table_widths(self, driver: Driver, width: int) -> Iterator[str]:
        address = self.width(driver.exprs[0])
        for (row, word), place in zip(driver.rows, driver.row_places):
            if len(word) != width:
                bits = f"the word has {len(word)} bits, and `{driver.to}` {width}"
                yield f"{self.at(place)}: {bits}; make them one width"
                return
            if row is not None and len(row) != address:
                yield f"{self.at(place)}: the address {row} has {len(row)} bits; expected {address}"
                return

    def driven_twice(self, driver: Driver) -> Iterator[str]:
        if driver.kind == "output" and self.ports[driver.to].is_input:
            yield f"{self.at(driver.at)}: `{driver.to}` is an input and cannot be driven"
            return
        is_output = driver.kind == "output"
        same = (one for one in self.design.drivers if (one.kind == "output") == is_output)
        others = (one for one in same if one.to == driver.to)
        line = self.at(next(others).at).split(":")[-2]
        yield f"{self.at(driver.at)}: `{driver.to}` is driven twice, first in line {line}; write one statement"

    def undriven(self, declared) -> Iterator[str]:
        what = "output" if hasattr(declared, "is_input") else "signal"
        write = f"{declared.name} <= {'std_logic_vector(..)' if what == 'output' else '..'};"
        yield f"{self.at(declared.at)}: nothing drives the {what} `{declared.name}`; add {write}"

    def cyclic(self, driver: Driver) -> Iterator[str]:
        way = self.way_back(driver.to)
        through = f": {listed(way, ' <- ')}" if way else ""
        yield f"{self.at(driver.at)}: `{short(driver.to)}` depends on itself without a register between{through}"
        yield "  put a register into the loop"

    def way_back(self, start: str) -> list[str]:
        """The shortest way from a signal back to itself, through what each reads in the same cycle."""
        reads: dict[str, list[str]] = {}
        for driver in self.design.drivers:
            if driver.kind not in ("register", "output"):
                reads[driver.to] = [use.name for use in driver.uses if not use.is_port]
        # The name by which each name was met first.
        met: dict[str, str] = {}
        ways = deque([start])
        while ways and start not in met:
            reader = ways.popleft()
            for name in reads.get(reader, []):
                if name not in met:
                    met[name] = reader
                    ways.append(name)
        if start not in met:
            return []
        way = [start]
        while len(way) == 1 or way[-1] != start:
            way.append(met[way[-1]])
        return way[::-1]

    def output_read(self, driver: Driver) -> Iterator[str]:
        for use in driver.uses:
            if use.is_port and not self.ports[use.name].is_input:
                yield f"{self.at(use.at)}: `{use.name}` is an output and cannot be read; read the signal that drives it"
                return

    def no_initial(self, signal) -> Iterator[str]:
        write = "write := (others => '0') before its `;`"
        yield f"{self.at(signal.at)}: the register `{signal.name}` has no initial value; {write}"

    def address_twice(self, driver: Driver) -> Iterator[str]:
        met: dict[str, int] = {}
        for (row, _), place in zip(driver.rows, driver.row_places):
            if row is not None and row in met:
                line = self.at(met[row]).split(":")[-2]
                yield f'{self.at(place)}: the address "{row}" is there twice, first in line {line}; take one out'
                return
            met[row] = place

    def bad_enable(self, port) -> Iterator[str]:
        found = f"{'in' if port.is_input else 'out'} std_logic_vector({port.width - 1} downto 0)"
        yield f"{self.at(port.at)}: the enable `{port.name}` is {found}; expected in std_logic_vector(0 downto 0)"


def declared(port: Port | report.Port) -> str:
    """A port as it is declared."""
    return f"{port.name} : {'in' if port.is_input else 'out'} std_logic_vector({port.width - 1} downto 0)"


def is_enable(port: Port) -> bool:
    return (port.name, port.is_input, port.width) == ("ce", True, 1)


FAULTS: dict[str, Callable[..., Iterator[str]]] = {
    "Lexical": Explainer.lexical,
    "Syntax": Explainer.syntax,
    "TooLarge": Explainer.too_large,
    "Unsound": Explainer.unsound,
}


def is_verilog(file: str) -> bool:
    """Whether a file is Verilog: by its name, or by what it begins with."""
    if Path(file).suffix.lower() in (".v", ".sv", ".vh", ".svh"):
        return True
    with open(file, "rb") as opened:
        return bool(VERILOG.match(opened.read(MOST_HEAD)))


def explain_verilog(command: str, file: str) -> list[str]:
    """That a file is Verilog, and what judges it."""
    rows = "let its simulator write rows `inputs : outputs`"
    return [
        f"{file}: this is Verilog, and `{command}` reads VHDL ({MANUAL})",
        f"  {rows}, one for each cycle, which {schema.command('rows')} judge SPEC ROWS --latency L judges",
    ]


def explain(file: str, fault: list[str]) -> list[str]:
    """What a fault with its numbers means in a file."""
    path = Path(file)
    if path.stat().st_size > MOST_BYTES and fault[0] != "Lexical":
        return [f"{file}: too long for a closer look"]
    text = path.read_bytes().decode("latin-1")
    return list(FAULTS[fault[0]](Explainer(file, text), *map(int, fault[1:])))


def explain_ports(file: str, spec: str, run: Runner | None) -> list[str]:
    """Which port differs from those of a specification, which the program is asked for."""
    try:
        wanted = ports_by(run, load(spec).table)
    except (NoPorts, NotToml, TooLong):
        return [f"{file}: its ports are not those of {spec}, in names, directions, widths or order"]
    return list(Explainer(file, Path(file).read_bytes().decode("latin-1")).ports(wanted))


def explain_enable(file: str) -> list[str]:
    """That `check` does not judge a circuit with a clock enable, nothing of another."""
    if Path(file).stat().st_size > MOST_BYTES:
        return []
    text = Path(file).read_bytes().decode("latin-1")
    try:
        enable = next((port for port in entity_of(text)[1] if is_enable(port)), None)
    except NotRead:
        return []
    if enable is None:
        return []
    at = Explainer(file, text).at(enable.at)
    return [
        f"{at}: `ce` is a clock enable: `check` judges no file with one, and no rows for one",
        "  check the circuit that `opgen generate` makes without --enable; tools/judge runs this one, with pauses",
    ]
