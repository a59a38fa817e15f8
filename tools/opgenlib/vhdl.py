"""Reads the VHDL subset of docs/VHDL.md: tokens with their places, pieces, the ports of an entity, or a whole design.

Names are in lower case. An expression is a tuple: ("name", N), ("part", N, HIGH, LOW), ("bits", TEXT),
("port", N), ("not", E) or ("chain", OPERATOR, [E, ..]). Rules on names and widths are left to `opgen simulate`.
A text is best decoded as latin-1: then offsets are those of its bytes.
"""
import re
from collections.abc import Iterator
from dataclasses import dataclass, field

from .places import Lines, Place
from .schema import SCHEMA

SPACE = r"(?:[ \t\r\n]+|--[^\n]*)*"
WORD = r"[A-Za-z](?:_?[A-Za-z0-9])*(?![A-Za-z0-9_])"
MARK = r"""[0-9]{1,9}(?![A-Za-z0-9_])|"[01]{1,96}"|'0'|<=|=>|:=|[();:,.&+\-=]"""
# A token with the space before it, or space alone.
TOKEN = re.compile(f"{SPACE}(?:({WORD}|{MARK})|)")
ARCHITECTURE = re.compile(r"^[ \t]*architecture\b", re.IGNORECASE | re.MULTILINE)
OPERATORS = {"and", "or", "xor", "&", "+", "-"}
MOST_LETTERS, MOST_INDEX, MOST_DEPTH = 64, 95, 64
# Names that operators give to ports, signals or architectures: no name of an operator, but a name in VHDL.
OWN_NAMES = {"rtl", "clk", "ce", "a", "b", "d", "q", "r", "x", "y"} | {f"y{k}" for k in range(8)}
REFUSED_NAMES = set(SCHEMA["properties"]["name"]["not"]["anyOf"][1]["enum"]) - OWN_NAMES


@dataclass(frozen=True, slots=True)
class Token:
    """A token as it is written, and the offset of its first letter."""

    written: str
    at: int

    @property
    def text(self) -> str:
        return self.written.lower()


END = Token("", -1)


class NotRead(Exception):
    """The text is not of the subset: what is expected in place of which token, by its number from 0."""

    def __init__(self, expected: str, found: Token = END, place: Place | None = None, number: int = -1) -> None:
        where = f"line {place.line}, column {place.column}: " if place else ""
        super().__init__(f"{where}found {found.written or 'the end'!r}, expected {expected}")
        self.expected, self.found, self.place, self.number = expected, found, place, number


class NoToken(NotRead):
    """At an offset no token starts."""

    def __init__(self, text: str, at: int) -> None:
        super().__init__("a token", Token(text[at : at + 1], at), Lines(text).place(at))
        self.at = at


@dataclass
class Port:
    name: str
    is_input: bool
    width: int
    at: int = -1


@dataclass
class Signal:
    name: str
    width: int
    initial: str | None
    at: int = -1


@dataclass(frozen=True, slots=True)
class Use:
    """A name that is used, as a port or as a signal, and its offset."""

    name: str
    is_port: bool
    at: int


@dataclass(slots=True)
class Driver:
    """What drives `to`: `assign`, `register` and `output` have one expression; `choice` has its condition and two;
    `table` has its address, and then rows of address and word, of which the last address is None."""

    kind: str
    to: str
    exprs: list
    rows: list = field(default_factory=list)
    uses: list[Use] = field(default_factory=list)
    at: int = -1
    row_places: list[int] = field(default_factory=list)


@dataclass
class Design:
    name: str
    ports: list[Port]
    signals: list[Signal]
    drivers: list[Driver]
    enable: str | None
    enable_at: int = -1
    # The names of entity and architecture that do not agree with those of their heads, and their offsets.
    other_names: list[Use] = field(default_factory=list)


def tokens_of(text: str) -> list[Token]:
    """The tokens of a text."""
    tokens = []
    end = 0
    while found := TOKEN.match(text, end):
        end = found.end()
        written = found[1]
        if written is None:
            break
        if len(written) > MOST_LETTERS and written[0].isalpha():
            raise NoToken(text, found.start(1))
        tokens.append(Token(written, found.start(1)))
    if end < len(text):
        raise NoToken(text, end)
    return tokens


class Reader:
    """The tokens of a text, and the number of the next."""

    def __init__(self, text: str) -> None:
        self.text = text
        self.lines = Lines(text)
        self.tokens = tokens_of(text)
        # Of each token and of the end, in small letters.
        self.texts = [*(token.text for token in self.tokens), END.text]
        self.number = 0
        self.uses: list[Use] = []

    def fail(self, expected: str, number: int | None = None) -> NotRead:
        """The fault of the token of this number, the next where none is given."""
        number = self.number if number is None else number
        found = self.tokens[number] if number < len(self.tokens) else END
        place = self.lines.place(found.at) if found is not END else None
        return NotRead(expected, found, place, number)

    def piece_of(self, number: int) -> int:
        """The number of the piece, from 1, in which a token is."""
        return 1 + sum(token.written == ";" for token in self.tokens[:number])

    def token(self) -> Token:
        return self.tokens[self.number] if self.number < len(self.tokens) else END

    def peek(self) -> str:
        return self.texts[self.number]

    def took(self, token: str) -> bool:
        """Whether the next token is this one, which is then taken."""
        if self.texts[self.number] == token:
            self.number += 1
            return True
        return False

    def take(self, words: str) -> None:
        """Takes these tokens, which are separated by spaces."""
        for word in words.split(" "):
            if not self.took(word):
                raise self.fail(f"`{word}`")

    def name(self) -> str:
        text = self.peek()
        if not text[:1].isalpha() or text in REFUSED_NAMES:
            raise self.fail("a name")
        self.number += 1
        return text

    def bits(self) -> str:
        if not self.peek().startswith('"'):
            raise self.fail('bits between double quotes, as "0101"')
        self.number += 1
        return self.tokens[self.number - 1].text[1:-1]

    def index(self) -> int:
        token = self.peek()
        if not token.isdigit() or int(token) > MOST_INDEX:
            raise self.fail(f"the number of a bit, 0 to {MOST_INDEX}")
        self.number += 1
        return int(token)

    def range(self) -> tuple[int, int]:
        """The places of `(HIGH downto LOW)`."""
        self.take("(")
        high = self.index()
        self.take("downto")
        low = self.index()
        self.take(")")
        return high, low

    def width(self) -> int:
        """The width of `(HIGH downto 0)`."""
        self.take("(")
        high = self.index()
        self.take("downto 0 )")
        return high + 1

    def port(self) -> Port:
        at = self.token().at
        name = self.name()
        self.take(":")
        if self.peek() not in ("in", "out"):
            raise self.fail("`in` or `out`")
        is_input = self.peek() == "in"
        self.number += 1
        self.take("std_logic_vector")
        return Port(name, is_input, self.width(), at)

    def end_name(self, name: str, others: list[Use]) -> None:
        """Takes the name behind an `end`, where one is written."""
        if not self.took(";"):
            at = self.token().at
            if (found := self.name()) != name:
                others.append(Use(found, False, at))
            self.take(";")

    def entity_with(self, others: list[Use]) -> tuple[str, list[Port]]:
        self.take("library ieee ; use ieee . std_logic_1164 . all ; use ieee . numeric_std . all ; entity")
        name, ports = self.name(), []
        self.take("is port ( clk : in std_logic ;")
        while True:
            ports.append(self.port())
            if self.took(")"):
                break
            if not self.took(";"):
                raise self.fail("`;`, or `)` behind the last port")
        self.take("; end")
        self.took("entity")
        self.end_name(name, others)
        return name, ports

    def entity(self) -> tuple[str, list[Port]]:
        """The name and the ports but for `clk`."""
        return self.entity_with([])

    def design(self) -> Design:
        others: list[Use] = []
        name, ports = self.entity_with(others)
        self.take("architecture")
        body = self.name()
        self.take("of")
        at = self.token().at
        if (of := self.name()) != name:
            others.append(Use(of, False, at))
        self.take("is")
        design = Design(name, ports, [], [], None, other_names=others)
        while self.took("signal"):
            design.signals.append(self.signal())
        if not self.took("begin"):
            raise self.fail("`signal` or `begin`")
        self.statements(design)
        self.took("architecture")
        self.end_name(body, others)
        if self.token() is not END:
            raise self.fail("nothing behind the architecture")
        return design

    def statements(self, design: Design) -> None:
        has_process = False
        while not self.took("end"):
            if not has_process and self.took("process"):
                has_process = True
                self.process(design)
            else:
                design.drivers.append(self.statement())

    def signal(self) -> Signal:
        at = self.token().at
        name = self.name()
        self.take(": unsigned")
        width, initial = self.width(), None
        if self.took(":="):
            if self.took("("):
                self.take("others => '0' )")
                initial = "0" * width
            else:
                initial = self.bits()
        self.take(";")
        return Signal(name, width, initial, at)

    def high(self) -> None:
        self.take("=")
        if self.peek() != '"1"':
            raise self.fail('"1"')
        self.number += 1

    def process(self, design: Design) -> None:
        """The registers of the process, and its enable."""
        self.take("( clk )")
        self.took("is")
        self.take("begin if rising_edge ( clk ) then")
        if self.took("if"):
            design.enable_at = self.token().at
            design.enable = self.name()
            self.high()
            self.take("then")
        design.drivers.append(self.register())
        while not self.took("end"):
            design.drivers.append(self.register())
        self.take("if ; end")
        if design.enable:
            self.take("if ; end")
        self.take("process ;")

    def driver(self, kind: str, to: str, exprs: list, at: int) -> Driver:
        """A driver with the names that were used since the last."""
        uses, self.uses = self.uses, []
        return Driver(kind, to, exprs, uses=uses, at=at)

    def register(self) -> Driver:
        at = self.token().at
        to = self.name()
        self.take("<=")
        driver = self.driver("register", to, [self.expr()], at)
        self.take(";")
        return driver

    def statement(self) -> Driver:
        at = self.token().at
        if self.took("with"):
            return self.table(at)
        if self.token() is END:
            raise self.fail("a statement or `end architecture;`")
        to = self.name()
        self.take("<=")
        if self.took("std_logic_vector"):
            self.take("(")
            driver = self.driver("output", to, [self.expr()], at)
            self.take(")")
        else:
            driver = self.valued(to, at)
        self.take(";")
        return driver

    def valued(self, to: str, at: int) -> Driver:
        """An assignment to a signal behind `<=`, without its semicolon."""
        value = self.expr()
        if not self.took("when"):
            return self.driver("assign", to, [value], at)
        on = self.part()
        self.high()
        self.take("else")
        return self.driver("choice", to, [on, value, self.expr()], at)

    def table(self, at: int) -> Driver:
        on = self.part()
        self.take("select")
        at = self.token().at
        driver = self.driver("table", self.name(), [on], at)
        self.take("<=")
        while True:
            driver.row_places.append(self.token().at)
            word = self.bits()
            self.take("when")
            if self.took("others"):
                self.take(";")
                driver.rows.append((None, word))
                return driver
            driver.rows.append((self.bits(), word))
            self.take(",")

    def part(self) -> tuple:
        at = self.token().at
        name = self.name()
        self.uses.append(Use(name, False, at))
        if self.peek() != "(":
            return ("name", name)
        return ("part", name, *self.range())

    def expr(self, depth: int = MOST_DEPTH) -> tuple:
        operands = [self.factor(depth)]
        operator = self.peek()
        while operator in OPERATORS and self.took(operator):
            operands.append(self.factor(depth))
        return operands[0] if len(operands) == 1 else ("chain", operator, operands)

    def factor(self, depth: int) -> tuple:
        if self.took("not"):
            return ("not", self.primary(depth))
        return self.primary(depth)

    def primary(self, depth: int) -> tuple:
        if self.peek() == "(":
            if depth == 0:
                raise self.fail(f"at most {MOST_DEPTH} parentheses in one another")
            self.number += 1
            inner = self.expr(depth - 1)
            self.take(")")
            return inner
        if self.peek().startswith('"'):
            return ("bits", self.bits())
        if self.took("unsigned"):
            self.take("(")
            self.uses.append(Use(self.peek(), True, self.token().at))
            port = self.name()
            self.take(")")
            return ("port", port)
        if not self.peek()[:1].isalpha() or self.peek() in REFUSED_NAMES:
            raise self.fail("a signal, bits, unsigned(PORT), `not` or `(`")
        return self.part()


def entity_of(text: str) -> tuple[str, list[Port]]:
    """The name and ports of the entity that a text begins with. What follows a line that begins with `architecture` is not read."""
    head = ARCHITECTURE.search(text)
    return Reader(text[: head.end()] if head else text).entity()


def design_of(text: str) -> Design:
    """The design that a whole text spells."""
    return Reader(text).design()


def names_in(expr: tuple) -> Iterator[str]:
    """The signals that an expression reads, each as often as it does."""
    match expr:
        case ("name", name) | ("part", name, _, _):
            yield name
        case ("not", operand):
            yield from names_in(operand)
        case ("chain", _, operands):
            for operand in operands:
                yield from names_in(operand)


def width_in(expr: tuple, signals: dict[str, int], ports: dict[str, int]) -> int | None:
    """The width of an expression, none where its operands' widths disagree or a slice is outside its signal."""
    match expr:
        case ("name", name):
            return signals.get(name)
        case ("part", name, high, low):
            return high - low + 1 if low <= high < signals.get(name, 0) else None
        case ("bits", bits):
            return len(bits)
        case ("port", name):
            return ports.get(name)
        case ("not", operand):
            return width_in(operand, signals, ports)
        case ("chain", operator, operands):
            widths = [width_in(operand, signals, ports) for operand in operands]
            if None in widths:
                return None
            return sum(widths) if operator == "&" else widths[0] if len(set(widths)) == 1 else None
