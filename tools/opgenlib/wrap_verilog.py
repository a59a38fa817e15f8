"""The wrapper of an operator in Verilog, its constants, and its test bench: Verilog-2001, but for `$fatal` in the bench."""
from collections.abc import Iterator

from .inner import VERILOG_WORDS, free, names_for, words_for, words_of
from .report import Port, Report
from .sorts import Sort

WRAP = """{head}
module {name}_wrap (
{ports}
);
  \\{name} {label} ({actuals});
{valid}endmodule
"""

VALID = """  // One register for each cycle of the latency, beside the data: rst resets these alone.
  reg [{top}:0] {valid} = {latency}'d0;
  assign valid_out = {out};
  always @(posedge clk)
    if (rst) {valid} <= {latency}'d0;
    else{ce} {valid} <= {moved};
"""
NO_VALID = """  assign valid_out = valid_in;
  wire unused_rst = rst;
"""

BENCH = """// A test bench of {name}_wrap for the rows of {name}.vec: it ends with a failure where an output differs.
//     iverilog -g2001 -o {name}_bench {name}.v {name}_wrap.v {name}_bench.v && vvp {name}_bench
// The outputs of a row belong to the inputs of the row {latency} before it. Those of the first {latency} rows come from the
// registers' initial values; of a circuit whose registers have none, begin at a later row: iverilog -P{name}_bench.FIRST={latency}
// Written by tools/wrap.
module {name}_bench;
  parameter ROWS = "{name}.vec";
  parameter FIRST = 0;
  parameter HALF = {half};
  reg clk = 1'b0;
{signals}
  integer rows, got, cycle = 0, faults = 0;

  {name}_wrap dut ({actuals});

  task edge_of_clk;
    begin
      clk = 1'b1;
      #HALF clk = 1'b0;
    end
  endtask

  // Counts a fault.
  task fault;
    begin
      faults = faults + 1;
      if (cycle < {latency}) $display("row %0d, from initial values:", cycle);
      else $display("row %0d, from the inputs of row %0d:", cycle, cycle - {latency});
    end
  endtask

  initial begin
    rows = $fopen(ROWS, "r");
    if (rows == 0) $fatal(1, "cannot open %0s", ROWS);
    while ($feof(rows) == 0) begin
      got = $fscanf(rows, "{format}\\n", {words});
      if (got != {count}) $fatal(1, "row %0d has not {count} words", cycle);
{sets}
      #HALF;
{compares}
      edge_of_clk;
{pauses}      cycle = cycle + 1;
    end
    if (cycle <= FIRST) $fatal(1, "no rows to compare");
{reset}    if (faults != 0) $fatal(1, "%0d outputs differ", faults);
    $display("{name}: all outputs agree in %0d rows, latency {latency}", cycle - FIRST);
    $finish;
  end
endmodule
"""

PAUSES = """      if (cycle % 3 == 2) begin
        {ce} = 1'b0;
{inverted}
        #HALF;
{silent}        edge_of_clk;
        {ce} = 1'b1;
      end
"""

SILENT = """        if (valid_out !== 1'b0) begin
          fault;
          $display("  valid_out is %b in a gap behind it", valid_out);
        end
"""

RESET = """    rst = 1'b1;
    valid_in = 1'b1;
    #HALF edge_of_clk;
    rst = 1'b0;
    for (got = 0; got <= {latency}; got = got + 1) begin
      #HALF if (valid_out !== (got == {latency})) begin
        fault;
        $display("  after a reset valid_out is %b in cycle %0d", valid_out, got);
      end
      edge_of_clk;
    end
"""


def spelled(name: str) -> str:
    """The name of a port, escaped where it is a word of Verilog."""
    return f"\\{name} " if name in VERILOG_WORDS else name


def vector(port: Port) -> str:
    """The type of a port."""
    return f"{'signed ' if port.is_signed else ''}[{port.width - 1}:0]"


def header_text(facts: Report, head: str) -> str:
    """The constants, to be included."""
    stem = facts.name.upper()
    constants = {"LATENCY": facts.latency, "PERIOD": facts.period}
    for port in facts.ports:
        sizes = {"WIDTH": port.width, "LSB": port.lsb, "SIGNED": int(port.is_signed)}
        constants |= {f"{port.name.upper()}_{what}": number for what, number in sizes.items()}
    lines = [f"`define {stem}_{what} {number}" for what, number in constants.items()]
    said = "// Cycles from an input to its output, the period in picoseconds, and the ports: a number times 2**LSB is its value."
    return "\n".join([head, f"`ifndef {stem}_PKG", f"`define {stem}_PKG", said, *lines, "`endif"]) + "\n"


def ports_of(facts: Report, sort: Sort) -> Iterator[str]:
    yield "input wire clk"
    yield from ["input wire ce"] if sort.has_ce else []
    yield from ["input wire rst", "input wire valid_in"] if sort.has_valid else []
    yield from (f"{'input' if port.is_input else 'output'} wire {vector(port)} {spelled(port.name)}" for port in facts.ports)
    yield from ["output wire valid_out"] if sort.has_valid else []


def valid_text(facts: Report, sort: Sort, valid: str) -> str:
    """The registers of the valid bit."""
    if facts.latency == 0:
        return NO_VALID
    top = facts.latency - 1
    moved = f"{{{valid}[{top - 1}:0], valid_in}}" if top else "valid_in"
    last = f"{valid}[{top}]"
    out, enable = (f"valid_in & {last}", "valid_in") if sort.is_gated else (last, "ce")
    return VALID.format(top=top, latency=facts.latency, valid=valid, moved=moved, out=out, ce=f" if ({enable})" if sort.has_enable else "")


def names_of(facts: Report, has_enable: bool, has_valid: bool) -> list[str]:
    valid = ["rst", "valid_in", "valid_out"] if has_valid else []
    return ["clk", *(["ce"] if has_enable else []), *valid, *(port.name for port in facts.ports)]


def actuals(names: list[str], sides: dict[str, str]) -> str:
    """The connections of ports: to the signals of these names, or to those of their own."""
    return ", ".join(f".{spelled(name)}({sides.get(name, spelled(name))})" for name in names)


def wrap_text(facts: Report, sort: Sort, head: str) -> str:
    """The wrapper."""
    taken = {"clk", "ce", "rst", "valid_in", "valid_out", *(port.name for port in facts.ports)}
    return WRAP.format(
        head=head,
        name=facts.name,
        ports=",\n".join(f"  {port}" for port in ports_of(facts, sort)),
        label=free("circuit", taken),
        actuals=actuals(names_of(facts, sort.has_enable, False), {"ce": "valid_in"} if sort.is_gated else {}),
        valid=valid_text(facts, sort, free("valid", taken)) if sort.has_valid else "",
    )


def signals_of(facts: Report, sort: Sort, sides: dict[str, str], words: dict[str, str]) -> Iterator[str]:
    yield from ["reg ce = 1'b1;"] if sort.has_ce else []
    yield from ["reg rst = 1'b0, valid_in = 1'b0;", "wire valid_out;"] if sort.has_valid else []
    for port in facts.ports:
        kind, initial = ("reg", " = 0") if port.is_input else ("wire", "")
        yield f"{kind} {vector(port)} {sides[port.name]}{initial};"
        yield f"reg [{port.width - 1}:0] {words[port.name]};"


def compares_of(facts: Report, sort: Sort, sides: dict[str, str], words: dict[str, str]) -> Iterator[str]:
    for port in facts.outputs:
        found, wanted = sides[port.name], words[port.name]
        yield f"      if (cycle >= FIRST && {found} !== {wanted}) begin"
        yield "        fault;"
        yield f'        $display("  {port.name} is %h in place of %h", {found}, {wanted});'
        yield "      end"
    if sort.has_valid:
        late = f"cycle >= {facts.latency} && (cycle - {facts.latency})" if facts.latency else "cycle"
        valid = f"cycle >= {facts.latency}" if sort.is_gated else f"{late} % 4 != 3"
        yield f"      if (valid_out !== ({valid})) begin"
        yield "        fault;"
        yield '        $display("  valid_out is %b", valid_out);'
        yield "      end"


def pauses_text(sort: Sort, inverted: str) -> str:
    """Cycles that the circuit does not take, with other inputs."""
    if not sort.has_enable:
        return ""
    return PAUSES.format(ce="valid_in" if sort.is_gated else "ce", inverted=inverted, silent=SILENT if sort.is_gated else "")


def bench_text(facts: Report, sort: Sort) -> str:
    """The test bench."""
    has_valid = sort.has_valid
    taken = VERILOG_WORDS | words_of("".join((BENCH, PAUSES, SILENT, RESET)), "//") | {"ce", "rst", "valid_in", "valid_out"}
    ports = [port.name for port in facts.ports]
    inner = names_for(ports, taken), words_for(ports, taken)
    sides, words = inner
    sets = [f"      {sides[port.name]} = {words[port.name]};" for port in facts.inputs]
    sent = "1'b1" if sort.is_gated else "cycle % 4 != 3"
    sets += [f"      valid_in = {sent};"] if has_valid else []
    inverted = "\n".join(f"        {sides[port.name]} = ~{words[port.name]};" for port in facts.inputs)
    formats = (" ".join(["%h"] * len(side)) for side in (facts.inputs, facts.outputs))
    return BENCH.format(
        name=facts.name,
        latency=facts.latency,
        half=max(facts.period // 2, 1),
        signals="\n".join(f"  {line}" for line in signals_of(facts, sort, *inner)),
        actuals=actuals(names_of(facts, sort.has_ce, has_valid), sides),
        format=" : ".join(formats),
        words=", ".join(words[port] for port in ports),
        count=len(facts.ports),
        sets="\n".join(sets),
        compares="\n".join(compares_of(facts, sort, *inner)),
        pauses=pauses_text(sort, inverted),
        reset=RESET.format(latency=facts.latency) if has_valid and facts.latency else "",
    )
