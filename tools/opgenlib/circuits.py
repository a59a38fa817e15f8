"""Circuits that the program generates in a folder of their own, as Verilog."""
import tempfile
from collections.abc import Sequence
from dataclasses import dataclass, replace
from pathlib import Path
from typing import Any

from opgen import Program

from . import verilog, vhdl
from .report import Port, Report, read_report
from .storing import store
from .writing import document


@dataclass(frozen=True)
class Circuit:
    """A circuit's report and its text of Verilog."""

    facts: Report
    text: str


def vector(port: Port) -> str:
    return f"[{port.width - 1}:0]"


def waiting(name: str, width: int, cycles: int) -> tuple[list[str], str]:
    """The registers that hold a word for some cycles, and the name of the word behind them."""
    lines = [f"  reg [{width - 1}:0] {name}_{at} = 0;" for at in range(1, cycles + 1)]
    before = [name, *(f"{name}_{at}" for at in range(1, cycles))]
    lines += [f"  always @(posedge clk) {name}_{at} <= {source};" for at, source in enumerate(before, 1) if cycles]
    return lines, f"{name}_{cycles}" if cycles else name


def joined(parts: Sequence[Circuit]) -> Circuit:
    """Circuits of the same name and inputs as one, with outputs `y`, `z` and `v`: earlier ones wait for the latest."""
    if len(parts) == 1:
        return parts[0]
    first, latency = parts[0].facts, max(part.facts.latency for part in parts)
    outputs = [replace(part.facts.outputs[0], name=letter) for part, letter in zip(parts, "yzv")]
    sides = [f"input {vector(port)} {port.name}" for port in first.inputs] + [f"output {vector(port)} {port.name}" for port in outputs]
    lines = [f"module {first.name}(input clk, {', '.join(sides)});"]
    text = ""
    for circuit, output in zip(parts, outputs):
        own = f"{first.name}_{output.name}"
        text += circuit.text.replace(f"module \\{first.name} (", f"module {own}(")
        places = ", ".join(f".{port.name}({port.name})" for port in first.inputs)
        held, last = waiting(f"{output.name}_0", output.width, latency - circuit.facts.latency)
        lines += [f"  wire {vector(output)} {output.name}_0;", f"  {own} circuit_{output.name}(.clk(clk), {places}, .y({output.name}_0));"]
        lines += [*held, f"  assign {output.name} = {last};"]
    facts = replace(first, ports=(*first.inputs, *outputs), latency=latency)
    return Circuit(facts, text + "\n".join([*lines, "endmodule"]) + "\n")


def generated(table: dict[str, Any], program: Program, folder: Path) -> Path:
    """Has the circuit of a specification made in a folder: the specification there."""
    spec = folder / "spec.toml"
    store(spec, document(table))
    program.call("generate", spec.name, folder=folder)
    return spec


def circuit_of(table: dict[str, Any], program: Program) -> Circuit:
    """The circuit of a specification. One that the program rejects raises `opgen.Rejected`."""
    with tempfile.TemporaryDirectory(prefix="opgen-circuit-") as name:
        folder = Path(name)
        generated(table, program, folder)
        facts = read_report(next(folder.glob("*.rpt")))
        return Circuit(facts, verilog.text_of(vhdl.design_of((folder / f"{facts.name}.vhd").read_text())))
