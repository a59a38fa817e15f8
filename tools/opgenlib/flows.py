"""What puts an operator into other flows: a core file for FuseSoC, and a test for cocotb."""
from .report import Report

CORE = """CAPI=2:

name: opgen:operators:{name}:1.0.0
description: "{said}"

filesets:
  rtl:
    files:
{rtl}
    file_type: {rtl_type}
{bench}
targets:
  default:
    filesets: [rtl]
    toplevel: {name}_{what}
{sim}"""

BENCH_FILES = """  bench:
    files:
      - {name}_{bench}.{ending}: {{file_type: {rtl_type}}}
      - {name}.vec: {{file_type: user, copyto: {name}.vec}}
"""

SIM = """  sim:
    default_tool: {tool}
    filesets: [rtl, bench]
    toplevel: {name}_{bench}
    tools:
      {tool}:
        {options}
"""

COCOTB = '''"""A cocotb test of {name} for the rows of {name}.vec; `python3 test_{name}.py` runs it by {simulator}.

The outputs of a row belong to the inputs of the row {latency} before it. Written by tools/wrap.
"""
from pathlib import Path

import cocotb
from cocotb.triggers import Timer

HERE = Path(__file__).resolve().parent
INPUTS, OUTPUTS = {inputs}, {outputs}
HALF = {half}


def rows():
    """The words of each row: inputs, outputs."""
    for line in (HERE / "{name}.vec").read_text().splitlines():
        yield [[int(word, 16) for word in side.split()] for side in line.split(":")]


async def edge(dut):
    dut.clk.value = 1
    await Timer(HALF, "ps")
    dut.clk.value = 0


@cocotb.test()
async def outputs_of_rows(dut):
    """Each output, just before the rising edge, is that of its row."""
    dut.clk.value = 0
{enable}    for cycle, (entered, wanted) in enumerate(rows()):
        for name, word in zip(INPUTS, entered):
            getattr(dut, name).value = word
        await Timer(HALF, "ps")
        found = [int(getattr(dut, name).value) for name in OUTPUTS]
        assert found == wanted, f"row {{cycle}}: {{found}} in place of {{wanted}}"
        await edge(dut)


def main():
    try:
        from cocotb_tools.runner import get_runner
    except ImportError:
        from cocotb.runner import get_runner
    runner = get_runner("{simulator}")
    runner.build(sources=[HERE / "{name}.{ending}"], hdl_toplevel="{name}", always=True)
    runner.test(hdl_toplevel="{name}", test_module="test_{name}")


if __name__ == "__main__":
    main()
'''


def core_text(facts: Report, said: str, is_verilog: bool, is_stream: bool) -> str:
    """A core file, CAPI 2, of the wrapper or the stream and its bench."""
    rtl_type, ending = ("verilogSource", "v") if is_verilog else ("vhdlSource-93", "vhd")
    what, bench = ("stream", "stream_bench") if is_stream else ("wrap", "bench")
    files = [f"      - {facts.name}.{ending}", f"      - {facts.name}_{what}.{ending}"]
    if is_verilog and not is_stream:
        files.append(f"      - {facts.name}_pkg.vh: {{is_include_file: true}}")
    known = {"name": facts.name, "ending": ending, "rtl_type": rtl_type, "what": what}
    tool, options = ("icarus", "iverilog_options: [-g2001]") if is_verilog else ("ghdl", "run_options: [--ieee-asserts=disable-at-0]")
    return CORE.format(
        said=said.replace('"', "'"),
        rtl="\n".join(files),
        bench=BENCH_FILES.format(bench=bench, **known),
        sim=SIM.format(tool=tool, options=options, bench=bench, **known),
        **known,
    )


def cocotb_text(facts: Report, has_enable: bool, is_verilog: bool) -> str:
    """A cocotb test."""
    return COCOTB.format(
        name=facts.name,
        latency=facts.latency,
        simulator="icarus" if is_verilog else "ghdl",
        ending="v" if is_verilog else "vhd",
        inputs=[port.name for port in facts.inputs],
        outputs=[port.name for port in facts.outputs],
        half=max(facts.period // 2, 1),
        enable="    dut.ce.value = 1\n" if has_enable else "",
    )
