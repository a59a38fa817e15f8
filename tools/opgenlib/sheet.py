"""The data sheet of an operator: a page of HTML with its style and pictures in it."""
from collections.abc import Iterator
from dataclasses import dataclass
from fractions import Fraction
from html import escape

from opgenlib.drawings.block import block
from opgenlib.drawings.chain import chain
from opgenlib.drawings.error import Found, error, exact_text, ulp_text
from opgenlib.drawings.example import Example, NotDrawn, cycles
from opgenlib.drawings.graph import adders_of, picture_of, words_of
from opgenlib.drawings.heap import heap
from opgenlib.drawings.profile import profile
from opgenlib.drawings.response import factors_of, is_filter, response
from opgenlib.drawings.schedule import Schedule
from opgenlib.drawings.timing import timing
from opgenlib.operators import memory_of
from opgenlib.report import CELLS, Port, Report
from opgenlib.rows import value_text
from opgenlib.schema import command
from opgenlib.svg import Picture
from opgenlib.words import formula, format_power, is_exact, latency_text, reference

STYLE = """
:root { color: #1a1a1a; background: white; font: 16px/1.45 Arial, "Liberation Sans", sans-serif; }
body { max-width: 60rem; margin: 0 auto; padding: 1rem 1.25rem 3rem; }
header { border-bottom: 3px solid #4682b4; margin-bottom: 1rem; }
h1 { margin: 0.5rem 0 0; font-size: 1.9rem; overflow-wrap: anywhere; }
header p { margin: 0.2rem 0 0.7rem; color: #444; }
h2 { margin: 1.8rem 0 0.5rem; font-size: 1.2rem; border-bottom: 1px solid #ccc; break-after: avoid; }
table { border-collapse: collapse; margin: 0.5rem 0; }
th, td { text-align: left; vertical-align: top; padding: 0.25rem 0.8rem 0.25rem 0; border-bottom: 1px solid #ddd; }
td.n, th.n { text-align: right; font-variant-numeric: tabular-nums; white-space: nowrap; }
.line { font-size: 0.85rem; }
.line th, .line td { white-space: nowrap; }
.facts th { white-space: nowrap; font-weight: 600; color: #333; }
.wide { overflow-x: auto; }
figure { margin: 0.8rem 0; overflow-x: auto; break-inside: avoid; }
figcaption { color: #444; font-size: 0.92rem; }
figure svg { display: block; width: var(--w); max-width: 100%; height: auto; }
.columns { columns: 15rem; }
pre { background: #f5f6f8; border: 1px solid #ddd; padding: 0.6rem 0.8rem; overflow-x: auto; font: 0.86rem/1.4 ui-monospace, "Liberation Mono", monospace; }
code { font-family: ui-monospace, "Liberation Mono", monospace; }
footer { margin-top: 2rem; border-top: 1px solid #ccc; color: #555; font-size: 0.85rem; }
@media (max-width: 44rem) { figure svg { max-width: none; } .facts th { white-space: normal; } }
@media print {
  @page { size: A4; margin: 15mm; }
  :root { font-size: 10pt; }
  body { max-width: none; padding: 0; }
  figure, .wide, pre { overflow: visible; }
  figure svg { max-width: 100%; max-height: 235mm; }
  .line { font-size: 7.5pt; }
  pre { white-space: pre-wrap; overflow-wrap: anywhere; break-inside: avoid; }
  tr, section.whole { break-inside: avoid; }
}
"""
KINDS = {
    "scale": "a number times a constant",
    "fir": "a filter",
    "tfir": "a filter in transposed form",
    "multiply": "a product",
    "divide": "a quotient",
    "root": "a square root",
    "poly": "a polynomial",
    "mcm": "a number times several constants",
    "constdiv": "a number divided by a constant",
    "sop": "a sum of products of several inputs",
}
CLASSES = {
    "wire": "concatenation and slices",
    "logic": "gates",
    "add": "sums and differences",
    "choice": "multiplexers of two inputs",
    "table": "tables, by the bits of their addresses",
    "register": "registers",
}
LONGEST_VALUE = 13
# The most columns of a heap that is drawn bit by bit.
MOST_DOTS = 30


@dataclass(frozen=True)
class Measured:
    """What was measured: the errors over rows, how these were chosen, and what Yosys made of the circuit, or why it did not."""

    errors: Found
    rows: str
    mapped: dict[str, dict[str, int]]
    not_mapped: str
    version: str


@dataclass(frozen=True)
class Sheet:
    """All of which the page tells."""

    example: Example
    has_enable: bool
    measured: Measured
    source: str

    @property
    def facts(self) -> Report:
        return self.example.report

    @property
    def spec(self) -> dict:
        return self.example.spec


def figure(picture: Picture, words: str) -> str:
    style = f'style="--w: {picture.width:.0f}px"'
    return f"<figure {style}>\n{picture.text_of()}<figcaption>{escape(words)}</figcaption>\n</figure>\n"


def table(head: list[str], rows: list[list[str]], numbers: set[int], is_narrow: bool = False) -> str:
    """A table, in which columns of numbers are set to the right; a narrow one has each row on one line."""

    def line(cells: list[str], kind: str) -> str:
        written = (f'<{kind}{" class=n" if at in numbers else ""}>{escape(cell)}</{kind}>' for at, cell in enumerate(cells))
        return f"<tr>{''.join(written)}</tr>\n"

    kind = " class=line" if is_narrow else ""
    return f'<div class="wide"><table{kind}>\n{line(head, "th")}{"".join(line(row, "td") for row in rows)}</table></div>\n'


def section(title: str, body: str, is_whole: bool = False) -> str:
    return f"<section{' class=whole' if is_whole else ''}>\n<h2>{escape(title)}</h2>\n{body}</section>\n"


def greatest_of(port: Port) -> str:
    short = value_text(port.greatest, port.lsb)
    return short if len(short) <= LONGEST_VALUE else f"{format_power(port.width - port.is_signed + port.lsb)} - {format_power(port.lsb)}"


def least_of(port: Port) -> str:
    short = value_text(port.least, port.lsb)
    return short if len(short) <= LONGEST_VALUE else f"-{format_power(port.width - 1 + port.lsb)}"


def bound_text(sheet: Sheet) -> str:
    if is_exact(sheet.spec, sheet.facts):
        return "exact: the output equals the value of the formula"
    return f"less than 1 ulp from {reference(sheet.spec)}; an ulp is {format_power(sheet.facts.outputs[0].lsb)}"


def size_text(sheet: Sheet) -> str:
    if tables := sheet.measured.mapped.get("tables"):
        return f"{tables['lut6']} tables of six inputs, {tables['ff']} flip-flops, by Yosys"
    bits = {kind: count for kind, count in sheet.facts.cells.items() if count and kind != "wire"}
    return "bits of cells: " + ", ".join(f"{kind} {count}" for kind, count in bits.items()) if bits else "no cells"


def error_text(sheet: Sheet) -> str:
    found, saturated = sheet.measured.errors.errors, sheet.measured.errors.saturated
    rows = sheet.measured.rows + (f"; {saturated} of these rows saturate and are not counted" if saturated else "")
    if not found:
        return f"none, {sheet.measured.rows}, each of which saturates"
    if not any(found):
        return f"0 ulp, {rows}"
    return f"from {ulp_text(min(found))} to {ulp_text(max(found))} ulp, {rows}"


def recovery_cycle(facts: Report, spec: dict) -> int:
    """The cycle from which on outputs are good whatever the registers hold in cycle 0: the latency, and of a filter its taps less one."""
    return facts.latency + memory_of(spec) - 1


def summary(sheet: Sheet) -> str:
    facts = sheet.facts
    rows = [
        ("Computes", formula(sheet.spec)),
        ("Error bound, proved", bound_text(sheet)),
        ("Error, measured", error_text(sheet)),
        ("Latency", f"{cycles(facts.latency)}; a new input in every cycle"),
        ("Recovery, proved", f"outputs are good from cycle {recovery_cycle(facts, sheet.spec)} on, whatever the registers hold in cycle 0"),
        ("Clock", f"{facts.period} ps, {1e6 / facts.period:.4g} MHz, slack {facts.slack} ps, by the table of delays {facts.target}"),
        ("Clock enable", "ce, one bit" if sheet.has_enable else "none"),
        ("Size", size_text(sheet)),
    ]
    lines = "".join(f"<tr><th>{escape(name)}</th><td>{escape(words)}</td></tr>\n" for name, words in rows)
    return f'<table class="facts">\n{lines}</table>\n'


def ports(sheet: Sheet) -> str:
    rows = [["clk", "in", "std_logic", "rising edge", "", "", "", ""]]
    if sheet.has_enable:
        rows.append(["ce", "in", "std_logic_vector(0 downto 0)", "clock enable", "", "", "", ""])
    for port in sheet.facts.ports:
        kind = f"std_logic_vector({port.width - 1} downto 0)"
        numbers = f"{port.sign}, {port.least} to {port.greatest}"
        unit = format_power(port.lsb)
        rows.append([port.name, "in" if port.is_input else "out", kind, numbers, unit, least_of(port), greatest_of(port)])
    head = ["port", "", "type", "number", "unit", "least value", "greatest value"]
    words = "A port's value is its number times the unit. Signed numbers are in two's complement."
    picture = figure(block(sheet.facts, sheet.has_enable), "The entity, with the bits of each port.")
    return picture + table(head, [row[:7] for row in rows], {4, 5, 6}, is_narrow=True) + f"<p>{words}</p>\n"


def accuracy(sheet: Sheet) -> str:
    if any(sheet.measured.errors.errors):
        measured = f"The measured errors go {error_text(sheet)}; they are from {exact_text(sheet.spec)}."
        picture = figure(error(sheet.example, has_command=False), "")
    else:
        measured, picture = f"Measured: every output is equal, {sheet.measured.rows}.", ""
    return f"<p>{escape(f'Proved for all inputs in range: {bound_text(sheet)}. {measured}')}</p>\n{picture}"


def filtered(sheet: Sheet) -> str:
    """Of a filter its response and its coefficients."""
    factors = factors_of(sheet.spec)
    words = "The gain of the filter with these coefficients by frequency, before its output is rounded."
    listed = "\n".join(f"c{at} = {value_text_of(factor)}" for at, factor in enumerate(factors))
    return figure(response(sheet.spec), words) + f'<pre class="columns">{escape(listed)}</pre>\n'


def value_text_of(factor: Fraction) -> str:
    """A coefficient as a fraction and, where that is none of whole numbers, as a decimal number."""
    return str(factor) if factor.denominator == 1 else f"{factor} = {float(factor):.9g}"


def structures(sheet: Sheet) -> Iterator[str]:
    """What the circuit is made of: its heap, graph or chain; digits are in the schedule alone."""
    match sheet.spec["kind"]:
        case "multiply" if sheet.spec["width_a"] + sheet.spec["width_b"] <= MOST_DOTS:
            yield figure(heap(sheet.example), "The heap: a dot is the product of two bits; compression leaves two rows, which one sum adds.")
        case "sop":
            yield figure(heap(sheet.example), "The heap, each term in its colour, before compression leaves two rows, which one sum adds.")
        case "scale" | "fir" | "poly" | "multiply":
            words = "The heap: how many bits each column has, before compression leaves two rows, which one sum adds."
            yield figure(profile(sheet.example), words)
        case "mcm" | "tfir":
            adders = adders_of(sheet.example)
            yield figure(picture_of(adders), words_of(adders))
        case "constdiv":
            words = "The tables: each divides a remainder and a digit of x. The numbers are those of one of the inputs that were tried."
            yield figure(chain(sheet.example), words)
        case "divide" | "root":
            return


def drawn(pictures: Iterator[str]) -> str:
    """The pictures, or why there are none."""
    try:
        return "".join(pictures)
    except NotDrawn as fault:
        return f"<p>Not drawn: {escape(str(fault))}.</p>\n"


def schedules(sheet: Sheet) -> Iterator[str]:
    """The schedule, each panel by itself, so that a page of paper takes it."""
    found = Schedule(sheet.example)
    if not found.bars:
        yield "<p>No cell takes time: the outputs are inputs, slices of them or constants.</p>\n"
        return
    count = len(found.panels)
    for at, panel in enumerate(found.panels, 1):
        words = f"When each cell works, by the table of delays {sheet.facts.target}" + (f", part {at} of {count}." if count > 1 else ".")
        yield figure(found.picture([panel]), words)


def cost(sheet: Sheet) -> str:
    rows = [[kind, str(sheet.facts.cells[kind]), CLASSES[kind]] for kind in CELLS if sheet.facts.cells[kind]]
    body = table(["cells", "bits", "what"], rows, {1}) if rows else "<p>No cells.</p>\n"
    mapped = []
    if tables := sheet.measured.mapped.get("tables"):
        mapped.append(["tables of six inputs, no carry chains", str(tables["lut6"]), str(tables["ff"]), f"{tables['levels']} levels of tables"])
    if chains := sheet.measured.mapped.get("chains"):
        mapped.append(["Xilinx series 7, no DSP blocks", str(chains["lut"]), str(chains["ff"]), f"{chains['carry4']} carry cells of four bits"])
    if mapped:
        body += table(["mapped by Yosys to", "tables", "flip-flops", "and"], mapped, {1, 2})
    return body + (f"<p>{escape(sheet.measured.not_mapped)}</p>\n" if sheet.measured.not_mapped else "")


def instance(sheet: Sheet) -> str:
    facts = sheet.facts
    wires = [("clk", "std_logic"), *([("ce", "std_logic_vector(0 downto 0)")] if sheet.has_enable else [])]
    wires += [(port.name, f"std_logic_vector({port.width - 1} downto 0)") for port in facts.ports]
    longest = max(len(name) for name, _ in wires)
    signals = "\n".join(f"signal {name.ljust(longest)} : {kind};" for name, kind in wires)
    actuals = ", ".join(f"{name} => {name}" for name, _ in wires)
    return f"{signals}\n..\n{facts.name}_1 : entity work.{facts.name} port map ({actuals});\n"


def use(sheet: Sheet) -> str:
    name, enable = sheet.facts.name, " --enable" if sheet.has_enable else ""
    wrap = command("wrap")
    commands = f"opgen generate {sheet.example.path.name}{enable}    # {name}.vhd, {name}.rpt\n{wrap} {sheet.example.path.name}    # {name}_wrap.vhd: a package, and ports of signed and unsigned\n"
    return f"<pre>{escape(instance(sheet))}</pre>\n<p>{escape(latency_text(sheet.facts, sheet.has_enable))}</p>\n<pre>{escape(commands)}</pre>\n"


def page(sheet: Sheet) -> str:
    name = sheet.facts.name
    body = [
        summary(sheet),
        section("Ports and formats", ports(sheet), True),
        section("Frequency response and coefficients", filtered(sheet)) if is_filter(sheet.spec) else "",
        section("Timing", figure(timing(sheet.facts, sheet.has_enable), "Inputs and outputs are sampled at the next rising edge. Equal colors belong together."), True),
        section("Accuracy", accuracy(sheet), True),
        section("Structure", drawn(structures(sheet))) if sheet.spec["kind"] not in ("divide", "root") else "",
        section("Schedule", drawn(schedules(sheet))),
        section("Cost", cost(sheet), True),
        section("In a design", use(sheet), True),
        section("Specification", f"<pre>{escape(sheet.source.strip())}</pre>\n"),
    ]
    return (
        f'<!doctype html>\n<html lang="en">\n<head>\n<meta charset="utf-8">\n<meta name="viewport" content="width=device-width">\n'
        f"<title>{escape(name)}: data sheet</title>\n<style>{STYLE}</style>\n</head>\n<body>\n"
        f"<header><h1>{escape(name)}</h1><p>{escape(KINDS[sheet.spec['kind']])}, kind {sheet.spec['kind']}; a fixed-point operator in VHDL</p></header>\n"
        f"{''.join(body)}<footer><p>Written by tools/sheet with {escape(sheet.measured.version)}.</p></footer>\n</body>\n</html>\n"
    )
