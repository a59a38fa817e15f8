"""Writes a design of the VHDL subset as Verilog, for tools that read no VHDL.

Ports, signals and registers keep their names and initial values. A table is a `case` with a `default`. Bits that nothing reads
go into one wire, `unused-bits`, so that a linter has nothing to say of them.
"""
from collections.abc import Iterator

from .vhdl import Design, Driver

WORDS = {"and": "&", "or": "|", "xor": "^", "+": "+", "-": "-"}


def written(name: str) -> str:
    """A name as Verilog takes any, reserved or not."""
    return f"\\{name} "


def literal(bits: str) -> str:
    return f"{len(bits)}'b{bits}"


def expr(tree: tuple) -> str:
    match tree:
        case ("name" | "port", name):
            return written(name)
        case ("part", name, high, low):
            return f"{written(name)}[{high}:{low}]"
        case ("bits", bits):
            return literal(bits)
        case ("not", operand):
            return f"(~{expr(operand)})"
        case ("chain", "&", operands):
            return "{" + ", ".join(map(expr, operands)) + "}"
        case ("chain", operator, operands):
            return "(" + f" {WORDS[operator]} ".join(map(expr, operands)) + ")"


def driver_lines(driver: Driver, enable: str | None) -> Iterator[str]:
    """The lines of one driver."""
    to = written(driver.to)
    match driver.kind:
        case "register":
            condition = f"if ({written(enable)}) " if enable else ""
            yield f"  always @(posedge clk) {condition}{to}<= {expr(driver.exprs[0])};"
        case "choice":
            on, yes, no = map(expr, driver.exprs)
            yield f"  assign {to}= {on} ? {yes} : {no};"
        case "table":
            yield "  always @*"
            yield f"    case ({expr(driver.exprs[0])})"
            for address, word in driver.rows:
                at = "default" if address is None else literal(address)
                yield f"      {at}: {to}= {literal(word)};"
            yield "    endcase"
        case _:
            yield f"  assign {to}= {expr(driver.exprs[0])};"


def reads_in(tree: tuple, widths: dict[str, int]) -> Iterator[tuple[str, int, int]]:
    """The ports and signals that an expression reads, each with its highest and lowest bit."""
    match tree:
        case ("name" | "port", name):
            yield name, widths[name] - 1, 0
        case ("part", name, high, low):
            yield name, high, low
        case ("not", operand):
            yield from reads_in(operand, widths)
        case ("chain", _, operands):
            for operand in operands:
                yield from reads_in(operand, widths)


def unused_bits(design: Design) -> Iterator[str]:
    """The clock and the bits of inputs and signals that nothing reads."""
    has_registers = any(driver.kind == "register" for driver in design.drivers)
    if not has_registers:
        yield "clk"
    widths = {one.name: one.width for one in (*design.ports, *design.signals)}
    inputs = [port.name for port in design.ports if port.is_input]
    unread = {name: set(range(widths[name])) for name in (*inputs, *(signal.name for signal in design.signals))}
    for tree in (tree for driver in design.drivers for tree in driver.exprs):
        for name, high, low in reads_in(tree, widths):
            unread[name] -= set(range(low, high + 1))
    if design.enable and has_registers:
        unread[design.enable].clear()
    for name, bits in unread.items():
        for low in sorted(bit for bit in bits if bit - 1 not in bits):
            high = next(bit for bit in range(low, widths[name]) if bit + 1 not in bits)
            yield f"{written(name)}[{high}:{low}]"


def module(design: Design) -> Iterator[str]:
    """The lines of a design. A whole bit of one-bit words is written as a place, as they are vectors here too."""
    held = {driver.to for driver in design.drivers if driver.kind in ("register", "table")}
    ports = ["input clk"]
    for port in design.ports:
        ports.append(f"{'input' if port.is_input else 'output'} [{port.width - 1}:0] {written(port.name)}")
    yield f"module {written(design.name)}("
    yield ",\n".join(f"  {port}" for port in ports)
    yield ");"
    for signal in design.signals:
        kind = "reg" if signal.name in held else "wire"
        initial = f"= {literal(signal.initial)}" if signal.initial and kind == "reg" else ""
        yield f"  {kind} [{signal.width - 1}:0] {written(signal.name)}{initial};"
    for driver in design.drivers:
        yield from driver_lines(driver, design.enable)
    if unused := list(unused_bits(design)):
        yield f"  wire {written('unused-bits')}= &{{1'b0, {', '.join(unused)}}};"
    yield "endmodule"


def text_of(design: Design) -> str:
    """A design as a text of Verilog."""
    return "\n".join(module(design)) + "\n"
